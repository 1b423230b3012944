//! A lawful index to draw calls over.

use super::buffers::length_near;
use super::rulers::ruler;
use super::size::Size;
use super::tables::trips;
use crate::model::index::Index;
use crate::model::layout::{slots, words};
use crate::model::ruler::Ruler;
use crate::model::trip::{Trip, ENTRY_WORDS};
use crate::random::Random;

/// A ruler, trips, and the index of these trips in arenas with little or no spare room.
#[derive(Clone)]
pub struct Made {
    pub ruler: Ruler,
    pub trips: Vec<Trip>,
    pub index: Index,
}

pub fn made(random: &mut Random, size: Size) -> Made {
    let ruler = ruler(random, size);
    let trips = trips(random, ruler, size.trips);
    made_of(random, size, ruler, trips)
}

pub fn made_of(random: &mut Random, size: Size, ruler: Ruler, trips: Vec<Trip>) -> Made {
    let (originals, replicas) = needed_words(ruler, &trips);
    let originals_length = length_near(random, size, originals, false);
    let replicas_length = length_near(random, size, replicas, false);
    let index = index_of(ruler, &trips, originals_length, replicas_length);
    Made { ruler, trips, index }
}

/// The words that the entries of these trips take in each arena.
pub fn needed_words(ruler: Ruler, trips: &[Trip]) -> (usize, usize) {
    let filled = slots(ruler, trips);
    (entry_words(&filled.originals), entry_words(&filled.replicas))
}

pub fn entry_words(slots: &[Vec<Trip>]) -> usize {
    slots.iter().map(|slot| ENTRY_WORDS * slot.len()).sum()
}

/// The arenas must be long enough.
pub fn index_of(ruler: Ruler, trips: &[Trip], originals_length: usize, replicas_length: usize) -> Index {
    match words(&slots(ruler, trips), originals_length, replicas_length) {
        Some(index) => index,
        None => unreachable!("the lengths were drawn to be enough"),
    }
}

/// An id that none of the trips has.
pub fn new_id(random: &mut Random, trips: &[Trip]) -> u32 {
    loop {
        let any = random.word();
        let small = random.below(2 * trips.len() + 4) as u32;
        let id = random.pick(&[0, u32::MAX, small, small, any]);
        if trips.iter().all(|trip| trip.id != id) {
            return id;
        }
    }
}
