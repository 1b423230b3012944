//! What document 01 says follows from the definition of where a trip is stored.

use super::examples::{bits, spread, trip};
use super::report::Report;
use super::second_ruler::counted_cell;
use crate::model::places::places;
use crate::model::ruler::Ruler;
use crate::random::Random;

pub fn places_of_trips(report: &mut Report) {
    for m in 0..=6 {
        for a in 0..1u32 << m {
            for b in a..1u32 << m {
                tried(report, bits(m.max(1), m), time_of(m, a), time_of(m, b));
                // Each time is a cell of its own, from 3 on; for m = 0 there are two times in the one cell.
                tried(report, spread(m, 3, if m == 0 { 4 } else { 2 + (1 << m) }), 3 + a, 3 + b);
            }
        }
    }
    let mut random = Random::new(5);
    for _ in 0..300 {
        let start = random.between(0, (1 << 24) - 1);
        let end = random.between(start, (1 << 24) - 1);
        tried(report, bits(24, 10), start, end);
        tried(report, spread(10, start / 2, (1 << 24) - 1), start, end);
    }
    most_partitions(report);
}

/// The first time of a cell where w is m, or 1 for m = 0.
fn time_of(m: u32, cell: u32) -> u32 {
    if m == 0 {
        2 * cell
    } else {
        cell
    }
}

fn tried(report: &mut Report, ruler: Ruler, start: u32, end: u32) {
    let m = ruler.m();
    let found = places(ruler, &trip(1, start, end));
    let name = format!("{:?}, [{},{}]", ruler, start, end);
    report.expect(found.iter().filter(|place| place.original).count() == 1, &format!("{}: one original", name));
    report.expect(found.iter().filter(|place| place.inside).count() == 1, &format!("{}: one \"in\"", name));
    for level in 0..=m {
        let here = found.iter().filter(|place| place.level == level).count();
        report.expect(here <= 2, &format!("{}: at most two partitions of level {}", name, level));
    }
    let most = if m < 2 { 1 } else { 2 * (m as usize - 1) };
    report.expect(found.len() <= most, &format!("{}: at most {} partitions", name, most));
    // The partitions cover the trip's cells, each once, and nothing else.
    let mut covered = vec![0; 1 << m];
    for place in &found {
        let cells = 1usize << (m - place.level);
        for cell in &mut covered[place.partition as usize * cells..(place.partition as usize + 1) * cells] {
            *cell += 1;
        }
    }
    let (a, b) = (cell_of(ruler, start), cell_of(ruler, end));
    let right = (0..1usize << m).all(|cell| covered[cell] == if a <= cell && cell <= b { 1 } else { 0 });
    report.expect(right, &format!("{}: each cell once", name));
}

/// The level-m cell, said otherwise than in the model.
fn cell_of(ruler: Ruler, time: u32) -> usize {
    match ruler {
        Ruler::Bits { w, m } => (time >> (w - m)) as usize,
        Ruler::Spread { m, lo, hi } => counted_cell(m, lo, hi, time) as usize,
    }
}

/// The bound of `tried` is met on each ruler by the trip that leaves out the first cell and the last: 18 at m = 10.
fn most_partitions(report: &mut Report) {
    for m in 2..=10 {
        // On both the cells are the times.
        for ruler in [bits(m, m), spread(m, 0, (1 << m) - 1)] {
            let found = places(ruler, &trip(1, 1, (1 << m) - 2)).len();
            report.expect(found == 2 * (m as usize - 1), &format!("{:?}: the longest trip: 2(m - 1) partitions", ruler));
        }
    }
}
