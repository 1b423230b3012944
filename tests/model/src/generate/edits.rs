//! Long histories of additions and removals on one index. The words go from call to call.

use super::days::day_word;
use super::made::{index_of, needed_words, new_id, Made};
use super::questions::{any_code, question};
use super::rows::spoil_addition;
use super::rulers::ruler;
use super::size::Size;
use super::tables::trips;
use super::times::{span, times_of, window};
use crate::call::{Call, Request};
use crate::model::days::EVERY_DAY;
use crate::model::edit::{add, remove};
use crate::model::trip::{trips_of, Trip, ENTRY_WORDS};
use crate::random::Random;

pub fn scene(random: &mut Random, size: Size) -> Vec<Call> {
    let mut made = history_start(random, size);
    let many = random.between(5, size.edits as u32);
    let mut calls = Vec::new();
    // Growing and shrinking by turns, so that full arenas, empty ones and refilled ones all come up.
    let mut growing = true;
    for _ in 0..many {
        if random.once_in(12) {
            growing = !growing;
        }
        let call = if random.once_in(8) {
            let (start, end) = window(random, made.ruler, &made.trips);
            let code = any_code(random);
            question(random, size, &made, code, start, end)
        } else if random.once_in(6) == growing {
            removal(random, &made)
        } else {
            addition(random, &made)
        };
        follow(&mut made, &call);
        calls.push(call);
    }
    calls
}

/// Arenas with room for some trips more than there are, and not for all that will come.
fn history_start(random: &mut Random, size: Size) -> Made {
    let ruler = ruler(random, size);
    let all = trips(random, ruler, size.trips);
    let (originals, replicas) = needed_words(ruler, &all);
    let first: Vec<Trip> = all.iter().take(random.below(all.len() + 1)).cloned().collect();
    let originals_length = originals + random.below(size.spare + 1);
    let replicas_length = replicas + random.below(size.spare + 1);
    let index = index_of(ruler, &first, originals_length, replicas_length);
    Made { ruler, trips: first, index }
}

/// A new trip, or one with faults; at times the copy of a trip under another id.
pub fn addition(random: &mut Random, made: &Made) -> Call {
    let known = times_of(&made.trips);
    let (start, end) = span(random, made.ruler, &known);
    let mut trip = Trip { id: new_id(random, &made.trips), start, end, days: day_word(random) };
    if !made.trips.is_empty() && random.once_in(4) {
        let like = random.pick(&made.trips);
        trip.start = like.start;
        trip.end = like.end;
        // On the days that the other leaves out.
        if random.once_in(2) && like.days != EVERY_DAY {
            trip.days = !like.days;
        }
    }
    if random.once_in(6) {
        spoil_addition(random, made.ruler, &mut trip, &made.trips);
    }
    Call { ruler: made.ruler, request: Request::Add { trip }, index: made.index.clone() }
}

pub fn removal(random: &mut Random, made: &Made) -> Call {
    let absent = made.trips.is_empty() || random.once_in(8);
    let id = if absent { new_id(random, &made.trips) } else { random.pick(&made.trips).id };
    Call { ruler: made.ruler, request: Request::Remove { id }, index: made.index.clone() }
}

/// What the call leaves is where the next one begins.
fn follow(made: &mut Made, call: &Call) {
    let reply = match &call.request {
        Request::Add { trip } => add(made.ruler, *trip, &mut made.index),
        Request::Remove { id } => remove(made.ruler, *id, &mut made.index),
        _ => return,
    };
    if reply.number == 0 {
        let total = made.index.directory[made.index.directory.len() / 2 - 1] as usize;
        made.trips = trips_of(&made.index.originals[..ENTRY_WORDS * total]);
    }
}
