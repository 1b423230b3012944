//! Add and remove: after an accepted edit the words are those of the edited table, built anew.

use super::build::row_refusal;
use super::check::table_of;
use super::days::{runs_never, EVERY_DAY};
use super::index::{refusal, Index, Reply, ACCEPTED};
use super::layout::{lay_out, slots, words};
use super::ruler::{Ruler, MOST_TRIPS};
use super::trip::{trips_of, words_of, Trip, ENTRY_WORDS};
use crate::faults::{planted, Fault};

/// Add: 1, 3, 8, 2, 4, 5, 6, 16, 7.
pub fn add(ruler: Ruler, trip: Trip, index: &mut Index) -> Reply {
    let mut trips = match table_of(ruler, index) {
        Ok(trips) => trips,
        Err(refused) => return refused,
    };
    if trips.len() == MOST_TRIPS {
        return refusal(2);
    }
    let zero_passes = planted(Fault::ZeroDaysAdded) || planted(Fault::SixteenAfterSeven);
    if let Some(number) = row_refusal(ruler, &trip, &trips, zero_passes) {
        return refusal(number);
    }
    trips.push(as_stored(trip));
    match lay_out(ruler, &trips, index.originals.len(), index.replicas.len()) {
        None => refusal(7),
        Some(_) if planted(Fault::SixteenAfterSeven) && runs_never(trip.days) => refusal(16),
        Some(words) => {
            *index = words;
            if planted(Fault::EndOfSlot) {
                move_to_slot_ends(ruler, &trips, index);
            }
            ACCEPTED
        }
    }
}

/// "Demand 3 reads the four-word trip": it is stored as it is given.
fn as_stored(trip: Trip) -> Trip {
    if planted(Fault::AddedEveryDay) {
        return Trip { days: EVERY_DAY, ..trip };
    }
    trip
}

/// Remove: 1, 3, 8, 10.
pub fn remove(ruler: Ruler, id: u32, index: &mut Index) -> Reply {
    let mut trips = match table_of(ruler, index) {
        Ok(trips) => trips,
        Err(refused) => return refused,
    };
    let row = match trips.iter().position(|trip| trip.id == id) {
        Some(row) => row,
        None => return refusal(10),
    };
    trips.remove(row);
    let mut edited = match lay_out(ruler, &trips, index.originals.len(), index.replicas.len()) {
        Some(words) => words,
        None => unreachable!("fewer trips never need more room"),
    };
    if planted(Fault::OldWords) {
        leave_old_words(trips.len(), &mut edited, index);
    }
    if planted(Fault::RemovalLeavesDays) {
        leave_old_days(trips.len(), &mut edited, index);
    }
    *index = edited;
    ACCEPTED
}

/// Only for the planted fault: the last of the trips goes to the end of each of its slots.
fn move_to_slot_ends(ruler: Ruler, trips: &[Trip], index: &mut Index) {
    let added = trips[trips.len() - 1];
    let mut filled = slots(ruler, trips);
    for slot in filled.originals.iter_mut().chain(filled.replicas.iter_mut()) {
        if let Some(position) = slot.iter().position(|trip| trip.id == added.id) {
            let trip = slot.remove(position);
            slot.push(trip);
        }
    }
    if let Some(words) = words(&filled, index.originals.len(), index.replicas.len()) {
        *index = words;
    }
}

/// Only for the planted fault: the words behind the entries that are left stay as they were.
fn leave_old_words(left: usize, edited: &mut Index, before: &Index) {
    let kept = ENTRY_WORDS * left;
    edited.originals[kept..].copy_from_slice(&before.originals[kept..]);
}

/// Only for the planted fault: entries move up, and their day words stay where they were.
fn leave_old_days(left: usize, edited: &mut Index, before: &Index) {
    let kept = ENTRY_WORDS * left;
    let mut entries = trips_of(&edited.originals[..kept]);
    for (entry, old) in entries.iter_mut().zip(trips_of(&before.originals)) {
        entry.days = old.days;
    }
    edited.originals[..kept].copy_from_slice(&words_of(&entries));
}
