//! The most trips, 4,096, and one more.

use super::buffers::{dirty, dirty_index};
use super::borders::{cell_length, first_time, last_time};
use super::days::{day, day_word};
use super::made::{index_of, needed_words};
use super::rulers::wide_ruler;
use super::times::window;
use crate::call::{Call, Request};
use crate::model::ask::Question;
use crate::model::days::EVERY_DAY;
use crate::model::edit::remove;
use crate::model::relation::{CODES, G_OVERLAPS};
use crate::model::ruler::{Kind, Ruler, MOST_TRIPS};
use crate::model::trip::{words_of, Trip, ENTRY_WORDS};
use crate::random::Random;

pub fn scene(random: &mut Random, kind: Kind) -> Vec<Call> {
    let m = random.pick(&[0, 1, 3, 4, 6, 8, 10]);
    let ruler = wide_ruler(random, kind, m);
    let mut rows = short_trips(random, ruler, MOST_TRIPS + 1);
    if random.once_in(2) {
        rows.iter_mut().for_each(|trip| trip.days = EVERY_DAY);
    }
    let full = &rows[..MOST_TRIPS];
    let over = rows[MOST_TRIPS];
    let mut calls = builds(random, ruler, full, over);
    let (originals, replicas) = needed_words(ruler, full);
    let index = index_of(ruler, full, originals, replicas);
    let (first, last) = (first_time(ruler), last_time(ruler));
    let call = |request: Request| Call { ruler, request, index: index.clone() };

    calls.push(call(Request::Check));
    calls.push(call(Request::Census));
    calls.push(call(Request::Run { level: 0, partition: 0, subdivision: 0 }));
    // 2 comes before what is wrong with the trip.
    calls.push(call(Request::Add { trip: over }));
    calls.push(call(Request::Add { trip: Trip { days: 0, ..over } }));
    calls.push(call(Request::Add { trip: Trip { id: full[0].id, start: last + 1, end: 0, days: 0 } }));
    for length in [MOST_TRIPS, MOST_TRIPS - 1, MOST_TRIPS + 1] {
        let answers = dirty(random, length);
        let question = Question { code: G_OVERLAPS, start: first, end: last, day: day(random, full) };
        calls.push(call(Request::Ask { question, answers }));
    }
    let (start, end) = window(random, ruler, full);
    let answers = dirty(random, MOST_TRIPS);
    let question = Question { code: random.between(0, CODES - 1), start, end, day: day(random, full) };
    calls.push(call(Request::Ask { question, answers }));

    // Room freed by a removal serves the next addition, to the last trip.
    let gone = random.pick(full);
    calls.push(call(Request::Remove { id: gone.id }));
    let mut less = index.clone();
    remove(ruler, gone.id, &mut less);
    calls.push(Call { ruler, request: Request::Add { trip: gone }, index: less });

    // One trip too many is no index of any table.
    let (originals, replicas) = needed_words(ruler, &rows);
    let beyond = index_of(ruler, &rows, originals, replicas);
    calls.push(Call { ruler, request: Request::Check, index: beyond });
    calls.extend(id_twice(random, ruler, full));
    calls
}

/// Two of many trips with one id: a build of them, and the check of the words that they would be laid out in.
fn id_twice(random: &mut Random, ruler: Ruler, full: &[Trip]) -> Vec<Call> {
    let mut rows = full.to_vec();
    rows[random.below(MOST_TRIPS)].id = full[random.below(MOST_TRIPS)].id;
    let (originals, replicas) = needed_words(ruler, &rows);
    let index = index_of(ruler, &rows, originals, replicas);
    vec![build_call(random, ruler, words_of(&rows), originals, replicas), Call { ruler, request: Request::Check, index }]
}

/// A build of all, one word short of it, with an id twice and with no day at the very end, and with too many rows.
fn builds(random: &mut Random, ruler: Ruler, full: &[Trip], over: Trip) -> Vec<Call> {
    let (originals, replicas) = needed_words(ruler, full);
    let mut calls = Vec::new();
    let table = words_of(full);
    calls.push(build_call(random, ruler, table.clone(), originals, replicas));
    calls.push(build_call(random, ruler, table.clone(), originals - 1, replicas));
    let last = MOST_TRIPS - 1;
    for bad in [Trip { id: full[0].id, ..full[last] }, Trip { days: 0, ..full[last] }] {
        let rows = [&full[..last], &[bad]].concat();
        calls.push(build_call(random, ruler, words_of(&rows), originals, replicas));
    }
    let mut longer = table.clone();
    longer.extend(words_of(&[over]));
    calls.push(build_call(random, ruler, longer, originals + ENTRY_WORDS, replicas));
    let mut uneven = table;
    uneven.push(0);
    calls.push(build_call(random, ruler, uneven, originals, replicas));
    calls
}

fn build_call(random: &mut Random, ruler: Ruler, table: Vec<u32>, originals: usize, replicas: usize) -> Call {
    let index = dirty_index(random, ruler.m(), originals, replicas);
    Call { ruler, request: Request::Build { table }, index }
}

/// An odd factor keeps ids apart and mixes their order. The second undoes a mixing by 2,654,435,769, as whoever parts
/// ids by a hash might have it: what that scatters it brings together.
const FACTORS: [u32; 2] = [2_654_435_761, 340_573_321];

/// Trips of a few cells at most, as long ones would need more replicas than a probe must hold.
pub fn short_trips(random: &mut Random, ruler: Ruler, many: usize) -> Vec<Trip> {
    let (earliest, last) = (first_time(ruler), last_time(ruler));
    let longest = 3 * cell_length(ruler);
    let mut found = Vec::new();
    let first = random.word();
    let factor = random.pick(&FACTORS);
    for k in 0..many as u32 {
        let start = random.between(earliest, last);
        let length = random.between(0, longest).min(last - start);
        let id = first.wrapping_add(k.wrapping_mul(factor));
        found.push(Trip { id, start, end: start + length, days: day_word(random) });
    }
    found
}
