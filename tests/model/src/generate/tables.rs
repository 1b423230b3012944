//! Lawful tables: times on the ruler, no trip backward, no id twice, none without a day.

use super::borders::{cell_end, cell_start, first_time, last_time};
use super::days::{day_word, pair_up};
use super::times::{every_span, span};
use crate::model::days::EVERY_DAY;
use crate::model::ruler::Ruler;
use crate::model::trip::Trip;
use crate::random::Random;

/// Up to `most` trips. The styles crowd trips into few slots, where the orders by start, by end and by id
/// can differ.
pub fn trips(random: &mut Random, ruler: Ruler, most: usize) -> Vec<Trip> {
    let many = match random.below(10) {
        0 => 0,
        1 => 1,
        2 => 2,
        _ => random.below(most + 1),
    };
    let ids = ids(random, many);
    let style = random.below(9);
    let m = ruler.m();
    let crowds = crowds(random, m);
    let fixed = span(random, ruler, &[]);
    let mut found: Vec<Trip> = Vec::new();
    let mut known = Vec::new();
    for id in ids {
        let crowd = random.pick(&crowds);
        let (start, end) = match style {
            0 | 1 => crowded(random, ruler, crowd),
            2 => crowded(random, ruler, widest_crowd(m)),
            3 => from_start(random, ruler, fixed.0),
            4 => to_end(random, ruler, fixed.1),
            5 if random.once_in(3) => (first_time(ruler), last_time(ruler)),
            6 if random.once_in(2) => point(random, ruler, &known),
            _ => span(random, ruler, &known),
        };
        known.push(start);
        known.push(end);
        found.push(Trip { id, start, end, days: day_word(random) });
    }
    match random.below(6) {
        0 | 1 => pair_up(random, &mut found),
        2 => found.iter_mut().for_each(|trip| trip.days = EVERY_DAY),
        _ => {}
    }
    found
}

/// Many trips all over the ruler, most of them short, so that all levels are in use.
pub fn scattered_trips(random: &mut Random, ruler: Ruler, many: usize) -> Vec<Trip> {
    let last = last_time(ruler);
    let all = last - first_time(ruler);
    let mut found: Vec<Trip> = Vec::new();
    let mut known = Vec::new();
    for id in ids(random, many) {
        let (start, mut end) = span(random, ruler, &known);
        if random.once_in(2) {
            let longest = all >> random.between(0, all.ilog2());
            end = start + random.between(0, longest).min(last - start);
        }
        known.push(start);
        known.push(end);
        found.push(Trip { id, start, end, days: day_word(random) });
    }
    found
}

/// Trips that lie in as many partitions as can be.
pub fn longest_trips(random: &mut Random, ruler: Ruler, many: usize) -> Vec<Trip> {
    let mut found = Vec::new();
    for id in ids(random, many) {
        let (start, end) = crowded(random, ruler, widest_crowd(ruler.m()));
        found.push(Trip { id, start, end, days: day_word(random) });
    }
    found
}

/// Every trip that a ruler has, points too.
pub fn every_trip(random: &mut Random, ruler: Ruler) -> Vec<Trip> {
    let spans = every_span(ruler);
    let names = ids(random, spans.len());
    spans.iter().zip(names).map(|(&(start, end), id)| Trip { id, start, end, days: day_word(random) }).collect()
}

/// Ids without a repetition, in several manners: rising, falling, mixed, any words, and the extremes.
pub fn ids(random: &mut Random, many: usize) -> Vec<u32> {
    let manner = random.below(5);
    let base = random.below(4) as u32;
    let mut found: Vec<u32> = Vec::new();
    while found.len() < many {
        let next = found.len() as u32;
        let any = random.word();
        let id = match manner {
            0 => base + next,
            1 => u32::MAX - next,
            2 => base + random.below(2 * many) as u32,
            3 => random.pick(&[0, 1, u32::MAX, u32::MAX - 1, 1 << 31, (1 << 31) - 1, any, any]),
            _ => any,
        };
        if !found.contains(&id) {
            found.push(id);
        }
    }
    if manner == 0 && random.once_in(2) {
        found.reverse();
    }
    found
}

/// A few pairs of level-m cells, first and last, that many trips share.
fn crowds(random: &mut Random, m: u32) -> Vec<(u32, u32)> {
    let last = (1u32 << m) - 1;
    let mut found = vec![widest_crowd(m)];
    for _ in 0..2 {
        let one = random.between(0, last);
        let other = random.between(0, last);
        found.push(if one <= other { (one, other) } else { (other, one) });
    }
    found
}

/// The cells of a trip that lies in as many partitions as can be.
fn widest_crowd(m: u32) -> (u32, u32) {
    if m < 2 {
        (0, (1 << m) - 1)
    } else {
        (1, (1 << m) - 2)
    }
}

/// Start somewhere in the first cell and end somewhere in the last, with many equal times among them.
fn crowded(random: &mut Random, ruler: Ruler, cells: (u32, u32)) -> (u32, u32) {
    let start = in_cell(random, ruler, cells.0);
    let end = in_cell(random, ruler, cells.1);
    if start <= end {
        (start, end)
    } else {
        (end, start)
    }
}

fn in_cell(random: &mut Random, ruler: Ruler, cell: u32) -> u32 {
    let (first, last) = (cell_start(ruler, cell), cell_end(ruler, cell));
    match random.below(4) {
        0 => first,
        1 => last,
        2 => last.min(first + 1),
        _ => random.between(first, last),
    }
}

fn from_start(random: &mut Random, ruler: Ruler, start: u32) -> (u32, u32) {
    let (_, end) = span(random, ruler, &[start]);
    if end < start {
        (start, start)
    } else {
        (start, end)
    }
}

fn to_end(random: &mut Random, ruler: Ruler, end: u32) -> (u32, u32) {
    let (start, _) = span(random, ruler, &[end]);
    if start > end {
        (end, end)
    } else {
        (start, end)
    }
}

fn point(random: &mut Random, ruler: Ruler, known: &[u32]) -> (u32, u32) {
    let (start, _) = span(random, ruler, known);
    (start, start)
}
