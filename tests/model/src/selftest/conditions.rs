//! Refusal 8 said in another way: as conditions on the words. All together must agree with the model. With
//! one left out the two must differ on some drawn call: a check that forgets it would then be noticed.

use super::report::Report;
use crate::call::Request;
use crate::generate::{Calls, FULL, SMALL};
use crate::model::check::check;
use crate::model::index::{directory_length, Index};
use crate::model::places::places;
use crate::model::ruler::{Ruler, MOST_TRIPS};
use crate::model::trip::{trips_of, Trip, ENTRY_WORDS};
use std::collections::BTreeSet;

#[derive(Clone, Copy, Debug, PartialEq)]
enum Condition {
    StartsAtZero,
    NeverFalls,
    Fits,
    SpareOriginals,
    SpareReplicas,
    MostTrips,
    OnRuler,
    Forward,
    RunsSomeDay,
    OriginalPlace,
    OriginalOrder,
    IdsDiffer,
    ReplicaPlace,
    ReplicaKnown,
    ReplicaDays,
    ReplicaInOrder,
    ReplicaAftOrder,
    ReplicaCount,
}

use self::Condition::*;

const ALL: [Condition; 18] = [
    StartsAtZero,
    NeverFalls,
    Fits,
    SpareOriginals,
    SpareReplicas,
    MostTrips,
    OnRuler,
    Forward,
    RunsSomeDay,
    OriginalPlace,
    OriginalOrder,
    IdsDiffer,
    ReplicaPlace,
    ReplicaKnown,
    ReplicaDays,
    ReplicaInOrder,
    ReplicaAftOrder,
    ReplicaCount,
];

const CALLS: usize = 6_000;

/// Originals of so many words make a slow check.
const LARGE: usize = 3_000;

pub fn conditions(report: &mut Report) {
    for size in [FULL, SMALL] {
        let mut noticed = [0; ALL.len()];
        for call in Calls::new(31, size).take(CALLS) {
            let (ruler, index) = (call.ruler, &call.index);
            let is_build = matches!(call.request, Request::Build { .. });
            if is_build || !ruler.in_bounds() || index.directory.len() != directory_length(ruler.m()) {
                continue;
            }
            let right = check(ruler, index).number == 0;
            report.expect(passes(ruler, index, None) == right, "the conditions agree with the model");
            // Large indices are slow, and only one condition is about them: those with more than the most trips.
            let large = index.originals.len() > LARGE;
            let over = index.originals.len() > ENTRY_WORDS * MOST_TRIPS;
            for (times, condition) in noticed.iter_mut().zip(&ALL) {
                if large && !(over && *condition == MostTrips) {
                    continue;
                }
                if passes(ruler, index, Some(*condition)) != right {
                    *times += 1;
                }
            }
        }
        for (times, condition) in noticed.iter().zip(&ALL) {
            let needs_big = *condition == MostTrips && !size.big;
            report.expect(*times > 0 || needs_big, &format!("a check without {:?} is noticed", condition));
        }
    }
}

/// One half of the directory and its arena.
struct Half<'a> {
    words: &'a [u32],
    arena: &'a [u32],
}

impl<'a> Half<'a> {
    fn total(&self) -> usize {
        self.words[self.words.len() - 1] as usize
    }

    /// The entries of a slot as far as there are any: with a condition left out, the words may say anything.
    fn slot(&self, number: usize) -> Vec<Trip> {
        let entries = self.arena.len() / ENTRY_WORDS;
        let first = (self.words[number] as usize).min(entries);
        let end = (self.words[number + 1] as usize).min(entries);
        trips_of(&self.arena[ENTRY_WORDS * first..ENTRY_WORDS * end.max(first)])
    }

    fn slots(&self) -> usize {
        self.words.len() - 1
    }

    fn starts_at_zero(&self) -> bool {
        self.words[0] == 0
    }

    fn never_falls(&self) -> bool {
        self.words.windows(2).all(|pair| pair[0] <= pair[1])
    }

    fn fits(&self) -> bool {
        ENTRY_WORDS * self.total() <= self.arena.len()
    }

    fn spare_is_zero(&self) -> bool {
        self.arena.iter().skip(ENTRY_WORDS * self.total()).all(|word| *word == 0)
    }
}

fn passes(ruler: Ruler, index: &Index, without: Option<Condition>) -> bool {
    let (first, second) = index.directory.split_at(index.directory.len() / 2);
    let originals = Half { words: first, arena: &index.originals };
    let replicas = Half { words: second, arena: &index.replicas };
    let asked = |condition: Condition| without != Some(condition);
    let mut trips: Vec<Trip> = Vec::new();
    let mut wanted = 0;
    for number in 0..originals.slots() {
        let slot = originals.slot(number);
        if asked(OriginalOrder) && !slot.windows(2).all(|pair| start_id(&pair[0]) < start_id(&pair[1])) {
            return false;
        }
        for trip in &slot {
            let on_ruler = is_time(ruler, trip.start) && is_time(ruler, trip.end);
            if asked(OnRuler) && !on_ruler || asked(Forward) && trip.start > trip.end {
                return false;
            }
            if asked(RunsSomeDay) && trip.days.count_ones() == 0 {
                return false;
            }
            if asked(OriginalPlace) && !lies_in(ruler, trip, number, true) {
                return false;
            }
            wanted += places(ruler, trip).iter().filter(|place| !place.original).count();
        }
        trips.extend(slot);
    }
    let known: BTreeSet<(u32, u32, u32)> = trips.iter().map(id_and_times).collect();
    let days: BTreeSet<(u32, u32)> = trips.iter().map(|trip| (trip.id, trip.days)).collect();
    for number in 0..replicas.slots() {
        let slot = replicas.slot(number);
        let in_order = number % 2 == 1 || slot.windows(2).all(|pair| end_id(&pair[0]) < end_id(&pair[1]));
        let aft_order = number % 2 == 0 || slot.windows(2).all(|pair| pair[0].id < pair[1].id);
        if asked(ReplicaInOrder) && !in_order || asked(ReplicaAftOrder) && !aft_order {
            return false;
        }
        for trip in &slot {
            if asked(ReplicaPlace) && !lies_in(ruler, trip, number, false) {
                return false;
            }
            if asked(ReplicaKnown) && !known.contains(&id_and_times(trip)) {
                return false;
            }
            if asked(ReplicaDays) && !days.contains(&(trip.id, trip.days)) {
                return false;
            }
        }
    }
    let halves = [&originals, &replicas];
    (!asked(StartsAtZero) || halves.iter().all(|half| half.starts_at_zero()))
        && (!asked(NeverFalls) || halves.iter().all(|half| half.never_falls()))
        && (!asked(Fits) || halves.iter().all(|half| half.fits()))
        && (!asked(SpareOriginals) || originals.spare_is_zero())
        && (!asked(SpareReplicas) || replicas.spare_is_zero())
        && (!asked(MostTrips) || trips.len() <= MOST_TRIPS)
        && (!asked(IdsDiffer) || ids_differ(&trips))
        && (!asked(ReplicaCount) || replicas.total() == wanted)
}

fn is_time(ruler: Ruler, time: u32) -> bool {
    match ruler {
        Ruler::Bits { w, .. } => time >> w == 0,
        Ruler::Spread { lo, hi, .. } => (lo..=hi).contains(&time),
    }
}

fn id_and_times(trip: &Trip) -> (u32, u32, u32) {
    (trip.id, trip.start, trip.end)
}

fn start_id(trip: &Trip) -> (u32, u32) {
    (trip.start, trip.id)
}

fn end_id(trip: &Trip) -> (u32, u32) {
    (trip.end, trip.id)
}

/// Whether the trip belongs into this slot of its half.
fn lies_in(ruler: Ruler, trip: &Trip, slot: usize, original: bool) -> bool {
    places(ruler, trip).iter().any(|place| {
        let number = (1usize << place.level) - 1 + place.partition as usize;
        place.original == original && slot == 2 * number + if place.inside { 0 } else { 1 }
    })
}

fn ids_differ(trips: &[Trip]) -> bool {
    let mut ids: Vec<u32> = trips.iter().map(|trip| trip.id).collect();
    ids.sort();
    ids.windows(2).all(|pair| pair[0] != pair[1])
}
