//! Faults in the rows of a table, several at once at times, so that the order of refusals shows.

use super::borders::last_time;
use super::days::part_of_the_days;
use super::times::{off_ruler, spoil_span};
use crate::model::days::EVERY_DAY;
use crate::model::ruler::Ruler;
use crate::model::trip::{Trip, ENTRY_WORDS};
use crate::random::Random;

/// One to three faults in rows drawn at random; the same row may be drawn twice.
pub fn spoil_rows(random: &mut Random, ruler: Ruler, trips: &mut [Trip]) {
    if trips.is_empty() {
        return;
    }
    for _ in 0..random.between(1, 3) {
        let row = random.below(trips.len());
        spoil_row(random, ruler, trips, row);
    }
}

fn spoil_row(random: &mut Random, ruler: Ruler, trips: &mut [Trip], row: usize) {
    let earlier = if row == 0 { 0 } else { random.below(row) };
    let last = last_time(ruler);
    match random.below(13) {
        0 => trips[row].start = off_ruler(random, ruler),
        1 => trips[row].end = off_ruler(random, ruler),
        2 => {
            let (start, end) = spoil_span(random, ruler, trips[row].start, trips[row].end);
            trips[row].start = start;
            trips[row].end = end;
        }
        3 | 4 => make_backward(&mut trips[row], last),
        5 | 6 => trips[row].id = trips[earlier].id,
        7 => {
            make_backward(&mut trips[row], last);
            trips[row].id = trips[earlier].id;
        }
        8 => {
            // On other days the id is the same all the same.
            trips[earlier].days = part_of_the_days(random);
            trips[row].days = !trips[earlier].days;
            trips[row].id = trips[earlier].id;
        }
        9 | 10 => trips[row].days = 0,
        11 => {
            trips[row].id = trips[earlier].id;
            trips[row].days = 0;
        }
        _ => {
            trips[row].id = trips[earlier].id;
            trips[row].end = off_ruler(random, ruler);
        }
    }
}

/// Start one past the end, where there is room for that.
pub fn make_backward(trip: &mut Trip, last: u32) {
    if trip.end < last {
        trip.start = trip.end + 1;
    } else {
        trip.start = last;
        trip.end = last - 1;
    }
}

/// A trip for an addition, with one fault or more, or none: a known id on other days, no day, bad times.
pub fn spoil_addition(random: &mut Random, ruler: Ruler, trip: &mut Trip, present: &[Trip]) {
    if !present.is_empty() && random.once_in(2) {
        let like = random.pick(present);
        trip.id = like.id;
        if like.days != EVERY_DAY {
            trip.days = !like.days;
        }
    }
    if random.once_in(2) {
        trip.days = 0;
    }
    match random.below(4) {
        0 => {
            let (start, end) = spoil_span(random, ruler, trip.start, trip.end);
            trip.start = start;
            trip.end = end;
        }
        1 => make_backward(trip, last_time(ruler)),
        _ => {}
    }
}

/// A table whose words are not whole rows.
pub fn spoil_length(random: &mut Random, table: &mut Vec<u32>) {
    if random.once_in(2) && table.len() >= ENTRY_WORDS {
        let less = 1 + random.below(ENTRY_WORDS - 1);
        let length = table.len() - less;
        table.truncate(length);
    } else {
        let more = 1 + random.below(ENTRY_WORDS - 1);
        for _ in 0..more {
            table.push(random.word());
        }
    }
}
