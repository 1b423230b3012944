//! Times and windows, most of them at places where a rule turns.

use super::borders::{border, first_time, last_time};
use crate::model::ruler::Ruler;
use crate::model::trip::Trip;
use crate::random::Random;

/// Around the change of day, and around the change of the next.
const DAY_TIMES: [u32; 8] = [86_399, 86_400, 86_401, 90_000, 90_600, 172_799, 172_800, 172_801];

/// A time on the ruler; `known` are times that are in use already.
pub fn time(random: &mut Random, ruler: Ruler, known: &[u32]) -> u32 {
    let (first, last) = (first_time(ruler), last_time(ruler));
    let drawn = match random.below(12) {
        0 => first,
        1 => last,
        2 => first + 1,
        3 | 4 => border(random, ruler),
        5 => border(random, ruler).wrapping_sub(1),
        6 => border(random, ruler) + 1,
        7 if !known.is_empty() => random.pick(known),
        8 if !known.is_empty() => random.pick(known).wrapping_add(1),
        9 if !known.is_empty() => random.pick(known).wrapping_sub(1),
        10 => random.pick(&DAY_TIMES),
        _ => random.between(first, last),
    };
    if drawn < first || drawn > last {
        random.between(first, last)
    } else {
        drawn
    }
}

/// A time that the ruler does not have: past its last, or before its first where there is such a time.
pub fn off_ruler(random: &mut Random, ruler: Ruler) -> u32 {
    let (first, last) = (first_time(ruler), last_time(ruler));
    if first > 0 && random.once_in(2) {
        return match random.below(4) {
            0 | 1 => first - 1,
            2 => 0,
            _ => random.between(0, first - 1),
        };
    }
    match random.below(6) {
        0 | 1 | 2 => last + 1,
        3 => last + 2,
        4 => u32::MAX,
        _ => random.between(last + 1, u32::MAX),
    }
}

/// Two times on the ruler, in order.
pub fn span(random: &mut Random, ruler: Ruler, known: &[u32]) -> (u32, u32) {
    let one = time(random, ruler, known);
    let other = match random.below(8) {
        0 | 1 => one,
        2 => one - (one - first_time(ruler)) / 2,
        _ => time(random, ruler, known),
    };
    if random.once_in(16) {
        return (first_time(ruler), last_time(ruler));
    }
    in_order(one, other)
}

/// All of them that a ruler has.
pub fn every_span(ruler: Ruler) -> Vec<(u32, u32)> {
    let (first, last) = (first_time(ruler), last_time(ruler));
    (first..=last).flat_map(|start| (start..=last).map(move |end| (start, end))).collect()
}

pub fn times_of(trips: &[Trip]) -> Vec<u32> {
    let mut times = Vec::new();
    for trip in trips {
        times.push(trip.start);
        times.push(trip.end);
    }
    times
}

/// A window over an index of these trips. Most are lawful and touch a trip's own times.
pub fn window(random: &mut Random, ruler: Ruler, trips: &[Trip]) -> (u32, u32) {
    let known = times_of(trips);
    let (first, last) = (first_time(ruler), last_time(ruler));
    let (start, end) = match random.below(24) {
        0 => (first, last),
        1 => (first, first),
        2 => (last, last),
        3 | 4 if !trips.is_empty() => {
            let trip = random.pick(trips);
            (trip.start, trip.end)
        }
        // Two known times: equal starts, equal ends and meeting windows come of this.
        5..=8 if !trips.is_empty() => in_order(random.pick(&known), random.pick(&known)),
        9..=15 if !trips.is_empty() => beside(random, ruler, trips),
        16 => {
            let one = time(random, ruler, &known);
            (one, one)
        }
        _ => span(random, ruler, &known),
    };
    match random.below(14) {
        0 => spoil_span(random, ruler, start, end),
        1 if start < end => (end, start),
        _ => (start, end),
    }
}

/// Just after a trip's end or just before its start: in the same cell and partition as the trip, and not
/// overlapping it. Here a comparison that is left out shows.
fn beside(random: &mut Random, ruler: Ruler, trips: &[Trip]) -> (u32, u32) {
    let known = times_of(trips);
    let trip = random.pick(trips);
    let other = match random.below(3) {
        0 => random.pick(&known),
        _ => time(random, ruler, &known),
    };
    let (first, last) = (first_time(ruler), last_time(ruler));
    if random.once_in(2) {
        let start = trip.end.saturating_add(1).clamp(first, last);
        (start, if other >= start { other } else { random.between(start, last) })
    } else {
        let end = trip.start.saturating_sub(1).clamp(first, last);
        (if other <= end { other } else { random.between(first, end) }, end)
    }
}

fn in_order(one: u32, other: u32) -> (u32, u32) {
    if one <= other {
        (one, other)
    } else {
        (other, one)
    }
}

/// Off the ruler at one end or both, and at times backward as well: then 4 comes before 5.
pub fn spoil_span(random: &mut Random, ruler: Ruler, start: u32, end: u32) -> (u32, u32) {
    match random.below(5) {
        0 => (start, off_ruler(random, ruler)),
        1 => (off_ruler(random, ruler), end),
        2 => (off_ruler(random, ruler), off_ruler(random, ruler)),
        3 => (last_time(ruler) + 1, last_time(ruler) + 1),
        _ => (off_ruler(random, ruler), first_time(ruler)),
    }
}
