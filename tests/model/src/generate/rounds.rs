//! One window on one day asked under every code, 0 to 13 in their order, each with a list that has room for all trips: first every
//! window of small rulers over every trip that they have, then the most trips, then drawn ones.

use super::big::short_trips;
use super::buffers::dirty;
use super::days::{half_of_the_days, lawful_day};
use super::made::{made, made_of, Made};
use super::size::{FULL, SMALL};
use super::tables::every_trip;
use super::times::{every_span, window};
use crate::call::{Call, Request};
use crate::model::ask::Question;
use crate::model::days::LAST_DAY;
use crate::model::relation::CODES;
use crate::model::ruler::{Ruler, MOST_TRIPS};
use crate::random::Random;

/// The widest rulers of the first kind of which every window is asked; and of the second, hi - lo and the deepest level.
const SMALL_WIDTH: u32 = 3;
const SMALL_SPREADS: [u32; 3] = [1, 3, 6];
const SMALL_DEPTH: u32 = 3;

/// Those of a timetable to 28:00, for the most trips.
const LARGE_RULERS: [Ruler; 2] = [Ruler::Bits { w: 18, m: 10 }, Ruler::Spread { m: 10, lo: 0, hi: 100_800 }];

/// An endless row of rounds, each the calls of one window; the same seed gives the same row.
pub fn rounds(seed: u64) -> impl Iterator<Item = Vec<Call>> + Send {
    let mut random = Random::of(seed, 2);
    let mut first = every_window(&mut random);
    for ruler in LARGE_RULERS {
        first.push(most_trips(&mut random, ruler));
    }
    first.into_iter().chain(std::iter::repeat_with(move || drawn(&mut random)))
}

fn every_window(random: &mut Random) -> Vec<Vec<Call>> {
    let mut found = Vec::new();
    for ruler in small_rulers() {
        found.extend(every_window_of(random, ruler));
    }
    found
}

/// Both kinds, short ones first.
fn small_rulers() -> Vec<Ruler> {
    let mut found = Vec::new();
    for (w, long) in (1..=SMALL_WIDTH).zip(SMALL_SPREADS) {
        found.extend((0..=w).map(|m| Ruler::Bits { w, m }));
        // From 0 and from a later time.
        found.extend((0..=SMALL_DEPTH).map(|m| Ruler::Spread { m, lo: 5 * (m % 2), hi: 5 * (m % 2) + long }));
    }
    found
}

/// Every window of a ruler, over every trip that it has.
fn every_window_of(random: &mut Random, ruler: Ruler) -> Vec<Vec<Call>> {
    let trips = every_trip(random, ruler);
    let made = made_of(random, SMALL, ruler, trips);
    let mut found = Vec::new();
    for (start, end) in every_span(ruler) {
        let day = lawful_day(random, &made.trips);
        found.push(round(random, &made, start, end, day));
    }
    found
}

/// Every window of two rulers with as many times, over every trip that they have. Under the second a trip runs on those days on
/// which it does not under the first: so on a window's day each trip that stands so is listed under one of the two alone.
pub fn every_window_of_two(seed: u64, rulers: [Ruler; 2]) -> Vec<Call> {
    let mut calls = Vec::new();
    for (number, ruler) in rulers.into_iter().enumerate() {
        // The same numbers are drawn for both.
        let mut random = Random::new(seed);
        let mut trips = every_trip(&mut random, ruler);
        for trip in &mut trips {
            let days = half_of_the_days(&mut random);
            trip.days = if number == 0 { days } else { !days };
        }
        let made = made_of(&mut random, SMALL, ruler, trips);
        for (start, end) in every_span(ruler) {
            let any = random.between(0, LAST_DAY);
            let day = random.pick(&[0, LAST_DAY, any, any]);
            calls.extend(round(&mut random, &made, start, end, day));
        }
    }
    calls
}

fn most_trips(random: &mut Random, ruler: Ruler) -> Vec<Call> {
    let trips = short_trips(random, ruler, MOST_TRIPS);
    let made = made_of(random, SMALL, ruler, trips);
    over(random, &made)
}

fn drawn(random: &mut Random) -> Vec<Call> {
    let size = if random.once_in(4) { FULL } else { SMALL };
    let made = made(random, size);
    over(random, &made)
}

/// A round for some window that passes 4 and 5.
fn over(random: &mut Random, made: &Made) -> Vec<Call> {
    loop {
        let (start, end) = window(random, made.ruler, &made.trips);
        if start <= end && made.ruler.on_ruler(start) && made.ruler.on_ruler(end) {
            let day = lawful_day(random, &made.trips);
            return round(random, made, start, end, day);
        }
    }
}

fn round(random: &mut Random, made: &Made, start: u32, end: u32, day: u32) -> Vec<Call> {
    let mut calls = Vec::new();
    for code in 0..CODES {
        let room = made.trips.len() + random.below(3);
        let question = Question { code, start, end, day };
        let request = Request::Ask { question, answers: dirty(random, room) };
        calls.push(Call { ruler: made.ruler, request, index: made.index.clone() });
    }
    calls
}
