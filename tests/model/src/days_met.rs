//! Cases of days (T-07) and how often each came, by kind of ruler: that the drawn calls have them is counted and not believed.

use crate::call::{Call, Request};
use crate::model::ask::{matches, Question};
use crate::model::check::check;
use crate::model::days::{EVERY_DAY, LAST_DAY};
use crate::model::index::{Index, ACCEPTED};
use crate::model::ruler::{Kind, KINDS};
use crate::model::trip::{trips_of, words_of, Trip, ENTRY_WORDS};

type Case = (&'static str, fn(&Seen) -> bool);

const CASES: [Case; 17] = [
    ("questions on day 0 that list trips", |seen| seen.lists_on(0)),
    ("questions on day 31 that list trips", |seen| seen.lists_on(LAST_DAY)),
    ("questions on day 32", |seen| seen.refused_on(LAST_DAY + 1)),
    ("questions on day 4294967295", |seen| seen.refused_on(u32::MAX)),
    ("questions on a day without trips", |seen| seen.asks_on_free_day()),
    ("questions that pass over trips of other days", |seen| seen.passes_over()),
    ("tables with a zero word", |seen| seen.number == 16 && seen.call.name() == "build"),
    ("additions with a zero word", |seen| seen.number == 16 && seen.call.name() == "add"),
    ("indices with a word of one bit", |seen| seen.has_trip(|trip| trip.days.count_ones() == 1)),
    ("indices with bit 31 alone", |seen| seen.has_trip(|trip| trip.days == 1 << LAST_DAY)),
    ("indices with every bit", |seen| seen.has_trip(|trip| trip.days == EVERY_DAY)),
    ("indices with the same times on disjoint days", |seen| seen.number == 0 && has_disjoint_twins(&seen.originals)),
    ("8 for the zero words of a whole trip", |seen| seen.has_zero_original() && seen.replicas_have_their_days()),
    ("8 for the zero word of an original alone", |seen| seen.has_zero_original() && !seen.replicas_have_their_days()),
    ("8 for the zero word of a replica alone", |seen| seen.has_wrong_replica() && has_zero(&seen.replicas)),
    ("8 for another word of a replica", |seen| seen.has_wrong_replica() && !has_zero(&seen.replicas)),
    ("8 for entries that differ in the day word alone", |seen| seen.number == 8 && differ_in_days_alone(&seen.originals)),
];

/// Larger originals are passed over: the small calls have all cases.
const LARGE: usize = 400;

/// A call, its answer, and the entries of its index as far as the directory's totals go.
struct Seen<'a> {
    call: &'a Call,
    number: u32,
    count: usize,
    originals: Vec<Trip>,
    replicas: Vec<Trip>,
    /// 8, and with every day in all entries it would be none.
    days_alone: bool,
}

impl Seen<'_> {
    fn of<'a>(call: &'a Call, answer: &str) -> Seen<'a> {
        let numbers: Vec<u32> = answer.split(' ').take(3).filter_map(|word| word.parse().ok()).collect();
        let (originals, replicas) = entries_of(call);
        let mut seen = Seen { call, number: numbers[0], count: 0, originals, replicas, days_alone: false };
        if let Request::Ask { .. } = call.request {
            seen.count = numbers[2] as usize;
        }
        seen.days_alone = seen.number == 8 && check(call.ruler, &seen.index_of_every_day()) == ACCEPTED;
        seen
    }

    fn question(&self) -> Option<Question> {
        match self.call.request {
            Request::Ask { question, .. } => Some(question),
            _ => None,
        }
    }

    fn asks_on(&self, day: u32) -> bool {
        self.question().map_or(false, |question| question.day == day)
    }

    fn lists_on(&self, day: u32) -> bool {
        self.asks_on(day) && self.count > 0
    }

    fn refused_on(&self, day: u32) -> bool {
        self.asks_on(day) && self.number == 17
    }

    fn asks_on_free_day(&self) -> bool {
        let is_free = |day: u32| day <= LAST_DAY && self.originals.iter().all(|trip| trip.days >> day & 1 == 0);
        self.number == 0 && !self.originals.is_empty() && self.question().map_or(false, |question| is_free(question.day))
    }

    fn passes_over(&self) -> bool {
        let of_all_days = |question| matches(question, &on_every_day(&self.originals)).len();
        self.number == 0 && self.question().map_or(false, |question| self.count < of_all_days(question))
    }

    /// Of an index that the call accepts; a build has none before.
    fn has_trip(&self, holds: fn(&Trip) -> bool) -> bool {
        self.number == 0 && self.originals.iter().any(holds)
    }

    fn has_zero_original(&self) -> bool {
        self.days_alone && has_zero(&self.originals)
    }

    /// The originals are sound, so the replicas are not.
    fn has_wrong_replica(&self) -> bool {
        self.days_alone && !has_zero(&self.originals)
    }

    fn replicas_have_their_days(&self) -> bool {
        self.replicas.iter().all(|replica| self.originals.contains(replica))
    }

    fn index_of_every_day(&self) -> Index {
        let mut index = self.call.index.clone();
        for (arena, entries) in [(&mut index.originals, &self.originals), (&mut index.replicas, &self.replicas)] {
            let words = words_of(&on_every_day(entries));
            arena[..words.len()].copy_from_slice(&words);
        }
        index
    }
}

fn entries_of(call: &Call) -> (Vec<Trip>, Vec<Trip>) {
    let index = &call.index;
    let is_build = matches!(call.request, Request::Build { .. });
    if is_build || index.directory.len() < 2 || index.originals.len() > LARGE {
        return (Vec::new(), Vec::new());
    }
    let (first, second) = index.directory.split_at(index.directory.len() / 2);
    (entries(first, &index.originals), entries(second, &index.replicas))
}

fn entries(half: &[u32], arena: &[u32]) -> Vec<Trip> {
    let claimed = half[half.len() - 1] as usize;
    let whole = arena.len() / ENTRY_WORDS;
    trips_of(&arena[..ENTRY_WORDS * claimed.min(whole)])
}

fn on_every_day(trips: &[Trip]) -> Vec<Trip> {
    trips.iter().map(|trip| Trip { days: EVERY_DAY, ..*trip }).collect()
}

fn has_zero(entries: &[Trip]) -> bool {
    entries.iter().any(|entry| entry.days == 0)
}

fn has_disjoint_twins(trips: &[Trip]) -> bool {
    any_pair(trips, |one, other| one.start == other.start && one.end == other.end && one.days & other.days == 0)
}

fn differ_in_days_alone(trips: &[Trip]) -> bool {
    any_pair(trips, |one, other| one != other && Trip { days: other.days, ..*one } == *other)
}

fn any_pair(trips: &[Trip], holds: fn(&Trip, &Trip) -> bool) -> bool {
    trips.iter().enumerate().any(|(k, one)| trips[..k].iter().any(|other| holds(one, other)))
}

#[derive(Default)]
pub struct DaysMet {
    counts: [[usize; KINDS.len()]; CASES.len()],
}

impl DaysMet {
    pub fn see(&mut self, call: &Call, answer: &str) {
        for case in cases_of(call, answer) {
            self.counts[case][place(call.ruler.kind())] += 1;
        }
    }

    /// Whether the call has a case that did not come yet under its kind of ruler.
    pub fn is_new(&self, call: &Call, answer: &str) -> bool {
        cases_of(call, answer).iter().any(|case| self.counts[*case][place(call.ruler.kind())] == 0)
    }

    pub fn join(&mut self, other: DaysMet) {
        for (counts, others) in self.counts.iter_mut().zip(other.counts) {
            for (count, more) in counts.iter_mut().zip(others) {
                *count += more;
            }
        }
    }

    pub fn print(&self) {
        for ((name, _), counts) in CASES.iter().zip(&self.counts) {
            let texts: Vec<String> = KINDS.iter().zip(counts).map(|(kind, count)| format!("{} x{}", kind.name(), count)).collect();
            println!("{}: {}", name, texts.join(", "));
        }
    }

    pub fn missing(&self) -> Vec<String> {
        let mut found = Vec::new();
        for ((name, _), counts) in CASES.iter().zip(&self.counts) {
            for (kind, _) in KINDS.iter().zip(counts).filter(|(_, count)| **count == 0) {
                found.push(format!("{}: none under a {} ruler", name, kind.name()));
            }
        }
        found
    }
}

fn cases_of(call: &Call, answer: &str) -> Vec<usize> {
    let seen = Seen::of(call, answer);
    (0..CASES.len()).filter(|case| CASES[*case].1(&seen)).collect()
}

fn place(kind: Kind) -> usize {
    KINDS.iter().position(|known| *known == kind).expect("every kind is among the kinds")
}
