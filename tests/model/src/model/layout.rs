//! The words of the index of some trips.

use super::days::EVERY_DAY;
use super::index::{partition_number, partitions, Index};
use super::places::places;
use super::ruler::Ruler;
use super::trip::{words_of, Trip, ENTRY_WORDS};
use crate::faults::{planted, Fault};

/// The entries of every slot, in the order of the slots: "in" slot 2p, "aft" slot 2p + 1.
#[derive(Clone, Debug, PartialEq)]
pub struct Slots {
    pub originals: Vec<Vec<Trip>>,
    pub replicas: Vec<Vec<Trip>>,
}

pub fn slots(ruler: Ruler, trips: &[Trip]) -> Slots {
    let many = 2 * partitions(ruler.m());
    let mut filled = Slots { originals: vec![Vec::new(); many], replicas: vec![Vec::new(); many] };
    for trip in trips {
        for place in places(ruler, trip) {
            let half = if place.original { &mut filled.originals } else { &mut filled.replicas };
            let aft = if place.inside { 0 } else { 1 };
            half[2 * partition_number(place.level, place.partition) + aft].push(entry(trip, place.original));
        }
    }
    for slot in &mut filled.originals {
        order_originals(slot);
    }
    for (number, slot) in filled.replicas.iter_mut().enumerate() {
        if number % 2 == 0 {
            order_replicas_in(slot);
        } else {
            order_replicas_aft(slot);
        }
    }
    filled
}

/// A replica has its trip's words, the day word too.
fn entry(trip: &Trip, original: bool) -> Trip {
    if planted(Fault::ReplicaEveryDay) && !original {
        return Trip { days: EVERY_DAY, ..*trip };
    }
    *trip
}

/// "O_in and O_aft by start then id."
fn order_originals(slot: &mut [Trip]) {
    if planted(Fault::OriginalsByDays) {
        slot.sort_by_key(|trip| (trip.start, trip.days, trip.id));
        return;
    }
    if planted(Fault::TieOrder) {
        slot.sort_by_key(|trip| (trip.start, !trip.id));
        return;
    }
    slot.sort_by_key(|trip| (trip.start, trip.id));
}

/// "R_in by end then id."
fn order_replicas_in(slot: &mut [Trip]) {
    if planted(Fault::InByDays) {
        slot.sort_by_key(|trip| (trip.end, trip.days, trip.id));
        return;
    }
    if planted(Fault::InByStart) {
        slot.sort_by_key(|trip| (trip.start, trip.id));
        return;
    }
    slot.sort_by_key(|trip| (trip.end, trip.id));
}

/// "R_aft by id."
fn order_replicas_aft(slot: &mut [Trip]) {
    if planted(Fault::AftByDays) {
        slot.sort_by_key(|trip| (trip.days, trip.id));
        return;
    }
    if planted(Fault::AftByStart) {
        slot.sort_by_key(|trip| (trip.start, trip.id));
        return;
    }
    slot.sort_by_key(|trip| trip.id);
}

/// The words of filled slots, or nothing where an arena is too short for its entries.
pub fn words(slots: &Slots, originals_length: usize, replicas_length: usize) -> Option<Index> {
    let (mut directory, originals) = half(&slots.originals, originals_length)?;
    let (replicas_half, replicas) = half(&slots.replicas, replicas_length)?;
    directory.extend(replicas_half);
    Some(Index { directory, originals, replicas })
}

/// "The word of a slot is the number of entries before it; the last word of a half is that half's
/// total." "Every arena word after the last entry is 0."
fn half(slots: &[Vec<Trip>], arena_length: usize) -> Option<(Vec<u32>, Vec<u32>)> {
    let mut directory = Vec::new();
    let mut entries = Vec::new();
    for slot in slots {
        directory.push(entries.len() as u32);
        entries.extend(slot);
    }
    directory.push(entries.len() as u32);
    if ENTRY_WORDS * entries.len() > arena_length {
        return None;
    }
    let mut arena = words_of(&entries);
    arena.resize(arena_length, 0);
    Some((directory, arena))
}

/// The index of some trips in arenas of these lengths, or nothing where one is too short.
pub fn lay_out(ruler: Ruler, trips: &[Trip], originals_length: usize, replicas_length: usize) -> Option<Index> {
    words(&slots(ruler, trips), originals_length, replicas_length)
}
