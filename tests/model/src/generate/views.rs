//! Runs and censuses over lawful indices.

use super::made::{made, Made};
use super::size::Size;
use crate::call::{Call, Request};
use crate::model::places::places;
use crate::random::Random;

pub fn scene(random: &mut Random, size: Size) -> Vec<Call> {
    let made = made(random, size);
    let mut calls = vec![view(&made, Request::Census)];
    for _ in 0..4 {
        let request = any_run(random, &made);
        calls.push(view(&made, request));
    }
    calls
}

fn view(made: &Made, request: Request) -> Call {
    Call { ruler: made.ruler, request, index: made.index.clone() }
}

/// Most runs are of a place where some trip lies; others are empty, or past an end.
pub fn any_run(random: &mut Random, made: &Made) -> Request {
    let m = made.ruler.m();
    let mut level = random.between(0, m);
    let mut partition = random.between(0, (1 << level) - 1);
    let mut subdivision = random.between(0, 3);
    if !made.trips.is_empty() && !random.once_in(4) {
        let trip = random.pick(&made.trips);
        let found = places(made.ruler, &trip);
        if !found.is_empty() {
            let place = random.pick(&found);
            level = place.level;
            partition = place.partition;
            subdivision = place.subdivision() as u32;
        }
    }
    match random.below(12) {
        0 => level = random.pick(&[m + 1, 11, 31, 32, 33, 64, level + 32, u32::MAX]),
        1 => partition = random.pick(&[1 << level, (1 << level) + 1, 1 << 31, u32::MAX]),
        2 => subdivision = random.pick(&[4, 5, 6, 7, 1 << 31, u32::MAX]),
        3 => {
            level = random.pick(&[m + 1, u32::MAX]);
            partition = random.pick(&[0, 1, u32::MAX]);
            subdivision = random.pick(&[0, 3, 4, u32::MAX]);
        }
        4 => partition = (1 << level) - 1,
        _ => {}
    }
    Request::Run { level, partition, subdivision }
}
