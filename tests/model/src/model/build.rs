//! Build: 1, 2, 3; then the first bad row decides, within it 4, 5, 6, 16, detail the row; then 7.

use super::days::runs_never;
use super::index::{directory_length, refusal, refusal_with, Index, Reply, ACCEPTED};
use super::layout::lay_out;
use super::ruler::{Ruler, MOST_TRIPS};
use super::trip::{trips_of, Trip, ENTRY_WORDS};
use crate::faults::{planted, Fault};

pub fn build(ruler: Ruler, table: &[u32], index: &mut Index) -> Reply {
    build_rows(ruler, table, index, planted(Fault::ZeroDaysBuilt))
}

/// `zero_passes` is for planted faults alone, which let a day word of zero pass in one call and not in another.
pub fn build_rows(ruler: Ruler, table: &[u32], index: &mut Index, zero_passes: bool) -> Reply {
    if !ruler.in_bounds() {
        return refusal(1);
    }
    if table.len() % ENTRY_WORDS != 0 || table.len() / ENTRY_WORDS > MOST_TRIPS {
        return refusal(2);
    }
    if index.directory.len() != directory_length(ruler.m()) {
        return refusal(3);
    }
    let trips = trips_of(table);
    let mut bad = Vec::new();
    for (row, trip) in trips.iter().enumerate() {
        if let Some(number) = row_refusal(ruler, trip, &trips[..row], zero_passes) {
            bad.push(refusal_with(number, row));
        }
    }
    if !bad.is_empty() {
        return if planted(Fault::LastBadRow) { bad[bad.len() - 1] } else { bad[0] };
    }
    match lay_out(ruler, &trips, index.originals.len(), index.replicas.len()) {
        None => refusal(7),
        Some(words) => {
            *index = words;
            ACCEPTED
        }
    }
}

/// What is wrong with one trip beside those that came before it: 4, 5, 6, 16 in this order.
pub fn row_refusal(ruler: Ruler, trip: &Trip, others: &[Trip], zero_passes: bool) -> Option<u32> {
    if let Some(number) = times_refusal(ruler, trip.start, trip.end) {
        return Some(number);
    }
    let bad_days = runs_never(trip.days) && !zero_passes;
    if planted(Fault::SixteenBeforeSix) && bad_days {
        return Some(16);
    }
    if is_id_of(trip, others) {
        return Some(6);
    }
    if bad_days {
        return Some(16);
    }
    None
}

/// Whether one of the others has the trip's id, on whatever days it runs.
fn is_id_of(trip: &Trip, others: &[Trip]) -> bool {
    if planted(Fault::IdsByDay) {
        return others.iter().any(|other| other.id == trip.id && other.days & trip.days != 0);
    }
    let near = if planted(Fault::FarIds) { others.len().saturating_sub(512) } else { 0 };
    others[near..].iter().any(|other| other.id == trip.id)
}

/// 4 and then 5, for a trip and for a window.
pub fn times_refusal(ruler: Ruler, start: u32, end: u32) -> Option<u32> {
    if planted(Fault::FiveBeforeFour) && start > end {
        return Some(5);
    }
    if !ruler.on_ruler(start) || !ruler.on_ruler(end) {
        return Some(4);
    }
    if start > end {
        return Some(5);
    }
    None
}
