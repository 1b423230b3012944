//! Questions over lawful indices: every code, windows at the turns, answer lists of every length.

use super::buffers::dirty;
use super::days::day;
use super::made::{made, made_of, Made};
use super::rulers::{ruler_with, small_ruler};
use super::size::Size;
use super::tables::{every_trip, scattered_trips};
use super::times::{every_span, window};
use crate::call::{Call, Request};
use crate::model::ask::{matches, Question};
use crate::model::relation::{CODES, G_OVERLAPS};
use crate::random::Random;

pub fn scene(random: &mut Random, size: Size) -> Vec<Call> {
    let made = made(random, size);
    every_code(random, size, &made)
}

/// Some hundred trips on many levels.
pub fn crowd_scene(random: &mut Random, size: Size) -> Vec<Call> {
    let m = random.between(4, size.deepest);
    let ruler = ruler_with(random, m);
    let many = random.between(100, 300) as usize;
    let trips = scattered_trips(random, ruler, many);
    let made = made_of(random, size, ruler, trips);
    every_code(random, size, &made)
}

/// Every trip that a small ruler has, asked with any of its windows.
pub fn every_trip_scene(random: &mut Random, size: Size) -> Vec<Call> {
    let ruler = small_ruler(random, if size.big { 3 } else { 2 });
    let spans = every_span(ruler);
    let trips = every_trip(random, ruler);
    let made = made_of(random, size, ruler, trips);
    let mut calls = Vec::new();
    for _ in 0..20 {
        let (start, end) = random.pick(&spans);
        let any = random.between(0, CODES - 1);
        let code = random.pick(&[any, any, G_OVERLAPS]);
        calls.push(question(random, size, &made, code, start, end));
    }
    calls
}

/// All codes over one index, in some order, and one that there is not. Code 13 has a way of its own past
/// comparisons, so it comes more often.
fn every_code(random: &mut Random, size: Size, made: &Made) -> Vec<Call> {
    let mut codes: Vec<u32> = (0..CODES).collect();
    codes.extend(&[G_OVERLAPS; 6]);
    codes.push(bad_code(random));
    random.shuffle(&mut codes);
    let same_window = random.once_in(4);
    let first = window(random, made.ruler, &made.trips);
    let mut calls = Vec::new();
    for code in codes {
        let (start, end) = if same_window { first } else { window(random, made.ruler, &made.trips) };
        calls.push(question(random, size, made, code, start, end));
    }
    calls
}

pub fn bad_code(random: &mut Random) -> u32 {
    random.pick(&[14, 15, 16, 1 << 4 | 13, 256, 1 << 31, u32::MAX])
}

pub fn any_code(random: &mut Random) -> u32 {
    match random.below(12) {
        0 => bad_code(random),
        1 | 2 => G_OVERLAPS,
        _ => random.between(0, CODES - 1),
    }
}

pub fn question(random: &mut Random, size: Size, made: &Made, code: u32, start: u32, end: u32) -> Call {
    let question = Question { code, start, end, day: day(random, &made.trips) };
    let found = if code < CODES { matches(question, &made.trips).len() } else { 0 };
    let length = match random.below(8) {
        0 | 1 | 2 => found,
        3 => found.saturating_sub(1),
        4 => 0,
        5 => found + 1,
        _ => found + random.below(size.spare + 1),
    };
    let answers = dirty(random, length);
    Call {
        ruler: made.ruler,
        request: Request::Ask { question, answers },
        index: made.index.clone(),
    }
}
