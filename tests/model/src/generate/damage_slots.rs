//! Damage to the entries of slots, with a directory that fits them again: every slot and every total looks
//! right, and still no table gives these words.

use super::borders::{cell_end, cell_start, first_time};
use super::damage_days::{damage_days, other_days};
use super::days::day_word;
use super::made::{entry_words, Made};
use super::tables::trips;
use super::times::off_ruler;
use crate::model::layout::{slots, words, Slots};
use crate::model::trip::Trip;
use crate::random::Random;

pub fn damage_slots(random: &mut Random, made: &mut Made) {
    let mut filled = slots(made.ruler, &made.trips);
    match random.below(14) {
        0 => filled = halves_of_two_tables(random, made, filled),
        1 | 2 | 3 => filled = slots_of_unlawful_trips(random, made),
        4 => {
            // As many entries as before: a count alone does not show it.
            drop_entry(random, &mut filled);
            double_entry(random, &mut filled);
        }
        5 | 6 => damage_days(random, &mut filled),
        _ => damage_entries(random, &mut filled),
    }
    if random.once_in(5) {
        damage_entries(random, &mut filled);
    }
    let originals = made.index.originals.len().max(entry_words(&filled.originals));
    let replicas = made.index.replicas.len().max(entry_words(&filled.replicas));
    if let Some(index) = words(&filled, originals, replicas) {
        made.index = index;
    }
}

fn damage_entries(random: &mut Random, filled: &mut Slots) {
    match random.below(12) {
        0 | 1 => drop_entry(random, filled),
        2 | 3 => double_entry(random, filled),
        4 | 5 | 6 | 7 => reorder_slot(random, filled),
        8 | 9 => change_entry(random, filled),
        10 => move_entry(random, filled),
        _ => swap_ids(random, filled),
    }
}

/// One half: that of the replicas more often.
pub fn half<'a>(random: &mut Random, filled: &'a mut Slots) -> &'a mut Vec<Vec<Trip>> {
    if random.once_in(3) {
        &mut filled.originals
    } else {
        &mut filled.replicas
    }
}

/// The slots with at least this many entries.
pub fn slots_with(half: &[Vec<Trip>], entries: usize) -> Vec<usize> {
    (0..half.len()).filter(|slot| half[*slot].len() >= entries).collect()
}

fn drop_entry(random: &mut Random, filled: &mut Slots) {
    let half = half(random, filled);
    let known = slots_with(half, 1);
    if !known.is_empty() {
        let slot = random.pick(&known);
        let entry = random.below(half[slot].len());
        half[slot].remove(entry);
    }
}

fn double_entry(random: &mut Random, filled: &mut Slots) {
    let half = half(random, filled);
    let known = slots_with(half, 1);
    if !known.is_empty() {
        let slot = random.pick(&known);
        let entry = random.below(half[slot].len());
        let mut twin = half[slot][entry];
        if random.once_in(2) {
            // The two differ in the day word alone.
            twin.days = other_days(random, twin.days);
        }
        half[slot].insert(entry, twin);
    }
}

/// Another order in one slot, one that would be right elsewhere or that only breaks a tie otherwise. Few
/// slots have two entries and many orders are the same, so it is tried a few times.
fn reorder_slot(random: &mut Random, filled: &mut Slots) {
    for _ in 0..8 {
        let half = half(random, filled);
        let known = slots_with(half, 2);
        if known.is_empty() {
            continue;
        }
        let slot = random.pick(&known);
        let before = half[slot].clone();
        other_order(random, &mut half[slot]);
        if half[slot] != before {
            return;
        }
    }
}

fn other_order(random: &mut Random, slot: &mut [Trip]) {
    match random.below(9) {
        0 => slot.sort_by_key(|trip| trip.id),
        1 => slot.sort_by_key(|trip| (trip.start, trip.id)),
        2 => slot.sort_by_key(|trip| (trip.end, trip.id)),
        3 => slot.sort_by_key(|trip| (trip.start, !trip.id)),
        4 => slot.sort_by_key(|trip| (trip.end, !trip.id)),
        5 => slot.sort_by_key(|trip| (trip.start, trip.days, trip.id)),
        6 => slot.sort_by_key(|trip| (trip.end, trip.days, trip.id)),
        7 => slot.sort_by_key(|trip| (trip.days, trip.id)),
        _ => {
            let entry = random.below(slot.len() - 1);
            slot.swap(entry, entry + 1);
        }
    }
}

/// One word of one entry to a neighbour; the trip's other entries keep the old word.
fn change_entry(random: &mut Random, filled: &mut Slots) {
    let half = half(random, filled);
    let known = slots_with(half, 1);
    if known.is_empty() {
        return;
    }
    let slot = random.pick(&known);
    let entry = random.below(half[slot].len());
    let trip = &mut half[slot][entry];
    let up = random.once_in(2);
    let word = match random.below(4) {
        0 => &mut trip.id,
        1 => &mut trip.start,
        2 => &mut trip.end,
        _ => &mut trip.days,
    };
    *word = if up { word.wrapping_add(1) } else { word.wrapping_sub(1) };
}

/// To the slot before or after, or to any other, there at either end.
fn move_entry(random: &mut Random, filled: &mut Slots) {
    let half = half(random, filled);
    let known = slots_with(half, 1);
    if known.is_empty() {
        return;
    }
    let from = random.pick(&known);
    let entry = random.below(half[from].len());
    let trip = half[from].remove(entry);
    let any = random.below(half.len());
    let to = random.pick(&[from.saturating_sub(1), (from + 1) % half.len(), any]);
    if random.once_in(2) {
        half[to].push(trip);
    } else {
        half[to].insert(0, trip);
    }
}

/// Two entries of one half exchange their ids.
fn swap_ids(random: &mut Random, filled: &mut Slots) {
    let half = half(random, filled);
    let known = slots_with(half, 1);
    if known.len() < 2 {
        return;
    }
    let one = random.pick(&known);
    let other = random.pick(&known);
    let first = half[one][0].id;
    half[one][0].id = half[other][0].id;
    half[other][0].id = first;
}

/// The originals of one table with the replicas of another.
fn halves_of_two_tables(random: &mut Random, made: &Made, filled: Slots) -> Slots {
    let mut others = if random.once_in(2) {
        trips(random, made.ruler, made.trips.len() + 1)
    } else {
        made.trips.clone()
    };
    if others.len() > 1 && random.once_in(2) {
        others.pop();
    }
    Slots { originals: filled.originals, replicas: slots(made.ruler, &others).replicas }
}

/// The slots of trips that no build accepts, filled as if it had: an id twice, with other days at times, a trip backward inside
/// one cell, an end off the ruler, no day.
fn slots_of_unlawful_trips(random: &mut Random, made: &Made) -> Slots {
    let ruler = made.ruler;
    let mut rows = made.trips.clone();
    if rows.is_empty() {
        rows.push(Trip { id: 0, start: first_time(ruler), end: first_time(ruler), days: day_word(random) });
    }
    let row = random.below(rows.len());
    match random.below(6) {
        0 => {
            let twin = rows[row];
            rows.push(twin);
        }
        3 => {
            let twin = Trip { days: other_days(random, rows[row].days), ..rows[row] };
            rows.push(twin);
        }
        4 => rows[row].days = 0,
        1 => {
            let other = random.below(rows.len());
            rows[row].id = rows[other].id;
        }
        2 => {
            let cell = ruler.cell(ruler.m(), rows[row].start);
            rows[row].end = cell_start(ruler, cell);
            rows[row].start = cell_end(ruler, cell);
        }
        _ => rows[row].end = off_ruler(random, ruler),
    }
    slots(ruler, &rows)
}
