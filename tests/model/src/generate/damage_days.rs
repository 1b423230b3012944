//! Damage to the day words of entries. All entries of a trip changed alike are the index of another table, if days are left.

use super::damage_slots::{half, slots_with};
use crate::model::days::LAST_DAY;
use crate::model::layout::Slots;
use crate::model::trip::Trip;
use crate::random::Random;

/// Which entries of a trip are changed.
#[derive(Clone, Copy)]
pub enum Entries {
    Original,
    Replicas,
    All,
}

pub const ENTRIES: [Entries; 3] = [Entries::Original, Entries::Replicas, Entries::All];

pub fn damage_days(random: &mut Random, filled: &mut Slots) {
    let Some(trip) = any_trip(random, filled) else { return };
    let days = if random.once_in(3) { 0 } else { other_days(random, trip.days) };
    if random.once_in(2) {
        change_entry(random, filled, days);
    } else {
        let entries = random.pick(&ENTRIES);
        set_days(filled, entries, trip.id, days);
    }
}

/// One bit set or taken out.
pub fn other_days(random: &mut Random, days: u32) -> u32 {
    days ^ 1 << random.between(0, LAST_DAY)
}

pub fn set_days(filled: &mut Slots, entries: Entries, id: u32, days: u32) {
    match entries {
        Entries::Original => change_half(&mut filled.originals, id, days),
        Entries::Replicas => change_half(&mut filled.replicas, id, days),
        Entries::All => {
            change_half(&mut filled.originals, id, days);
            change_half(&mut filled.replicas, id, days);
        }
    }
}

fn change_half(half: &mut [Vec<Trip>], id: u32, days: u32) {
    for entry in half.iter_mut().flatten().filter(|entry| entry.id == id) {
        entry.days = days;
    }
}

/// A trip that has replicas, if there is one.
pub fn any_trip(random: &mut Random, filled: &Slots) -> Option<Trip> {
    let replicas: Vec<Trip> = filled.replicas.concat();
    let known = if replicas.is_empty() { filled.originals.concat() } else { replicas };
    if known.is_empty() {
        None
    } else {
        Some(random.pick(&known))
    }
}

fn change_entry(random: &mut Random, filled: &mut Slots, days: u32) {
    let half = half(random, filled);
    let known = slots_with(half, 1);
    if !known.is_empty() {
        let slot = random.pick(&known);
        let entry = random.below(half[slot].len());
        half[slot][entry].days = days;
    }
}
