//! A small index with each of its words changed in turn.

use super::damaged::any_call;
use super::made::{made_of, Made};
use super::rulers::ruler_with;
use super::size::Size;
use super::tables::trips;
use crate::call::{Call, Request};
use crate::model::trip::ENTRY_WORDS;
use crate::random::Random;

/// Few words, so that the whole sweep is about a hundred calls.
const MOST_TRIPS: usize = 3;

pub fn scene(random: &mut Random, size: Size) -> Vec<Call> {
    let made = small_index(random, size);
    let index = &made.index;
    let many = index.directory.len() + index.originals.len() + index.replicas.len();
    let mut calls = Vec::new();
    for k in 0..many {
        for change in 0..4 {
            let mut changed = made.clone();
            let word = nth_word(&mut changed, k);
            let old = *word;
            *word = match change {
                0 => old.wrapping_add(1),
                1 => old.wrapping_sub(1),
                2 => 0,
                _ => u32::MAX,
            };
            if *word == old {
                continue;
            }
            let mut call = any_call(random, size, &changed);
            if random.once_in(2) {
                call.request = Request::Check;
            }
            calls.push(call);
        }
    }
    calls
}

/// An index with a replica, if a few draws give one.
fn small_index(random: &mut Random, size: Size) -> Made {
    let mut found = draw(random, size);
    for _ in 0..20 {
        if found.trips.len() > 1 && found.index.replicas.len() >= ENTRY_WORDS {
            break;
        }
        found = draw(random, size);
    }
    found
}

fn draw(random: &mut Random, size: Size) -> Made {
    let m = random.between(0, 2);
    let ruler = ruler_with(random, m);
    let trips = trips(random, ruler, MOST_TRIPS);
    made_of(random, Size { spare: 3, ..size }, ruler, trips)
}

/// The k-th word of the directory, the originals and the replicas, as if they were one.
fn nth_word(made: &mut Made, k: usize) -> &mut u32 {
    let directory = made.index.directory.len();
    let originals = made.index.originals.len();
    if k < directory {
        &mut made.index.directory[k]
    } else if k < directory + originals {
        &mut made.index.originals[k - directory]
    } else {
        &mut made.index.replicas[k - directory - originals]
    }
}
