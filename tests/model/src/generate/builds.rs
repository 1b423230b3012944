//! Builds: lawful ones, and ones with faults of every rank at once.

use super::buffers::{dirty_index, length_near};
use super::made::needed_words;
use super::rows::{spoil_length, spoil_rows};
use super::rulers::{ruler, spoil_directory, spoil_ruler};
use super::size::Size;
use super::tables::trips;
use crate::call::{Call, Request};
use crate::model::build::build;
use crate::model::index::ACCEPTED;
use crate::model::trip::{words_of, ENTRY_WORDS};
use crate::random::Random;

/// A build; after an accepted one at times the check of what it wrote, or the same table in another
/// order of rows.
pub fn scene(random: &mut Random, size: Size) -> Vec<Call> {
    let mut ruler = ruler(random, size);
    let mut rows = trips(random, ruler, size.trips);
    let (originals, replicas) = needed_words(ruler, &rows);
    if random.once_in(2) {
        spoil_rows(random, ruler, &mut rows);
    }
    let mut table = words_of(&rows);
    if random.once_in(12) {
        spoil_length(random, &mut table);
    }
    let originals_length = length_near(random, size, originals, true);
    let replicas_length = length_near(random, size, replicas, true);
    let mut index = dirty_index(random, ruler.m(), originals_length, replicas_length);
    if random.once_in(12) {
        spoil_directory(random, ruler.m(), &mut index.directory);
    }
    if random.once_in(10) {
        spoil_ruler(random, &mut ruler);
    }
    let first = Call { ruler, request: Request::Build { table: table.clone() }, index };
    let mut calls = vec![first.clone()];
    if random.once_in(4) {
        calls.extend(second_call(random, &first, table));
    }
    calls
}

fn second_call(random: &mut Random, first: &Call, table: Vec<u32>) -> Option<Call> {
    let mut built = first.index.clone();
    if build(first.ruler, &table, &mut built) != ACCEPTED {
        return None;
    }
    let mut second = first.clone();
    if random.once_in(2) {
        second.request = Request::Check;
        second.index = built;
    } else {
        let mut rows: Vec<&[u32]> = table.chunks(ENTRY_WORDS).collect();
        random.shuffle(&mut rows);
        second.request = Request::Build { table: rows.concat() };
    }
    Some(second)
}
