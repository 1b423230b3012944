//! The rules about days one after the other, over one index under a ruler of each kind: each by itself, and beside a fault that
//! comes before it or after it.

use super::borders::{first_time, last_time};
use super::buffers::{dirty, dirty_index};
use super::damage_days::{any_trip, other_days, set_days, ENTRIES};
use super::damaged::plain;
use super::days::{day_among, lawful_day, no_day, part_of_the_days};
use super::made::{entry_words, index_of, needed_words, new_id, Made};
use super::questions::bad_code;
use super::rows::make_backward;
use super::rulers::{level, ruler_of};
use super::size::Size;
use super::tables::trips;
use super::times::off_ruler;
use crate::call::{Call, Request};
use crate::model::ask::{matches, Question};
use crate::model::days::LAST_DAY;
use crate::model::layout::{slots, words};
use crate::model::relation::{CODES, G_OVERLAPS};
use crate::model::ruler::{Kind, KINDS};
use crate::model::trip::{words_of, Trip};
use crate::random::Random;

pub fn scene(random: &mut Random, size: Size) -> Vec<Call> {
    let mut calls = Vec::new();
    for kind in KINDS {
        let made = tight(random, size, kind);
        calls.extend(questions(random, &made));
        calls.extend(additions(random, &made));
        calls.extend(builds(random, &made));
        calls.extend(checks(random, &made));
    }
    calls
}

/// An index with at least two trips, the first two of which have the same times and no day in common, and one trip of them with
/// replicas if a few draws give one. The arenas have room for no other entry.
fn tight(random: &mut Random, size: Size, kind: Kind) -> Made {
    let mut found = draw(random, size, kind);
    for _ in 0..40 {
        if found.trips.len() > 2 && !found.index.replicas.is_empty() {
            break;
        }
        found = draw(random, size, kind);
    }
    found
}

fn draw(random: &mut Random, size: Size, kind: Kind) -> Made {
    let m = level(random, size);
    let ruler = ruler_of(random, kind, m);
    let mut rows = trips(random, ruler, size.trips);
    let first = rows.first().copied().unwrap_or(Trip { id: 0, start: first_time(ruler), end: last_time(ruler), days: 1 });
    let days = part_of_the_days(random);
    let one = Trip { days, ..first };
    let other = Trip { id: new_id(random, &[&rows[..], &[one]].concat()), days: !days, ..first };
    rows.splice(0..rows.len().min(1), [one, other]);
    let (originals, replicas) = needed_words(ruler, &rows);
    let index = index_of(ruler, &rows, originals, replicas);
    Made { ruler, trips: rows, index }
}

/// Over all times under code 13 and over a trip's own under any: days that are none and days that are, lists too short and not.
fn questions(random: &mut Random, made: &Made) -> Vec<Call> {
    let (first, last) = (first_time(made.ruler), last_time(made.ruler));
    let like = random.pick(&made.trips);
    let whole = |day: u32| Question { code: G_OVERLAPS, start: first, end: last, day };
    let own = Question { start: like.start, end: like.end, ..whole(day_among(random, like.days)) };
    let mut asked = vec![whole(0), whole(LAST_DAY), whole(LAST_DAY + 1), whole(u32::MAX), own];
    asked.push(whole(lawful_day(random, &made.trips)));
    asked.push(whole(day_among(random, free_days(&made.trips))));
    asked.push(Question { code: random.between(0, CODES - 1), ..own });
    // 17 after 9, 4 and 5.
    asked.push(Question { start: last, end: first, ..whole(no_day(random)) });
    asked.push(Question { end: off_ruler(random, made.ruler), ..whole(no_day(random)) });
    asked.push(Question { code: bad_code(random), ..whole(no_day(random)) });
    let mut calls: Vec<Call> = asked.iter().map(|question| call(random, made, *question, made.trips.len())).collect();
    // 17 before 7, and 7 with the trips of the one day.
    for day in [LAST_DAY + 1, no_day(random), own.day] {
        let question = whole(day);
        calls.push(call(random, made, question, matches(question, &made.trips).len().saturating_sub(1)));
    }
    calls
}

fn call(random: &mut Random, made: &Made, question: Question, room: usize) -> Call {
    plain(made, Request::Ask { question, answers: dirty(random, room) })
}

/// The days on which no trip runs.
fn free_days(trips: &[Trip]) -> u32 {
    !trips.iter().fold(0, |all, trip| all | trip.days)
}

/// No day, by itself and beside each other fault. The index has no room, so 7 would come last.
fn additions(random: &mut Random, made: &Made) -> Vec<Call> {
    let ruler = made.ruler;
    let known = random.pick(&made.trips);
    let never = Trip { id: new_id(random, &made.trips), days: 0, ..known };
    let mut backward = never;
    make_backward(&mut backward, last_time(ruler));
    let rows = [
        never,
        Trip { id: known.id, ..never },
        Trip { id: known.id, days: other_days(random, known.days), ..known },
        backward,
        Trip { end: off_ruler(random, ruler), ..never },
        Trip { days: 1 << LAST_DAY, ..never },
    ];
    let mut calls: Vec<Call> = rows.iter().map(|trip| plain(made, Request::Add { trip: *trip })).collect();
    // With room for a trip more.
    let more = Trip { days: part_of_the_days(random), ..never };
    let (originals, replicas) = needed_words(ruler, &[&made.trips[..], &[more]].concat());
    let roomy = index_of(ruler, &made.trips, originals, replicas);
    for trip in [more, Trip { days: 1 << LAST_DAY, ..more }, never] {
        calls.push(Call { ruler, request: Request::Add { trip }, index: roomy.clone() });
    }
    calls
}

/// The table as it is; a row without a day by itself, in a full table, and beside each other fault of the row; and an id that comes
/// again on other days.
fn builds(random: &mut Random, made: &Made) -> Vec<Call> {
    let ruler = made.ruler;
    let row = random.below(made.trips.len());
    let earlier = made.trips[if row == 0 { 0 } else { random.below(row) }];
    let never = Trip { days: 0, ..made.trips[row] };
    let mut backward = never;
    make_backward(&mut backward, last_time(ruler));
    let last = made.trips.len() - 1;
    let changes = [
        (row, made.trips[row]),
        (row, never),
        (row, Trip { id: earlier.id, ..never }),
        (row, backward),
        (row, Trip { start: off_ruler(random, ruler), ..never }),
        (last, Trip { id: made.trips[0].id, days: !made.trips[0].days, ..made.trips[last] }),
    ];
    let (originals, replicas) = (made.index.originals.len(), made.index.replicas.len());
    let mut calls = Vec::new();
    for (row, changed) in changes {
        let mut rows = made.trips.clone();
        rows[row] = changed;
        let index = dirty_index(random, ruler.m(), originals, replicas);
        calls.push(Call { ruler, request: Request::Build { table: words_of(&rows) }, index });
    }
    // 16 before 7.
    let mut rows = made.trips.clone();
    rows[row] = never;
    let index = dirty_index(random, ruler.m(), 0, 0);
    calls.push(Call { ruler, request: Request::Build { table: words_of(&rows) }, index });
    calls
}

/// One bit of a trip's day word changed, and all of them gone, in the original, in the replicas and in both; then a second entry
/// that differs in the day word alone.
fn checks(random: &mut Random, made: &Made) -> Vec<Call> {
    let whole = slots(made.ruler, &made.trips);
    let Some(trip) = any_trip(random, &whole) else { return Vec::new() };
    let mut damaged = Vec::new();
    for entries in ENTRIES {
        for days in [0, other_days(random, trip.days)] {
            let mut filled = whole.clone();
            set_days(&mut filled, entries, trip.id, days);
            damaged.push(filled);
        }
    }
    let twin = Trip { days: other_days(random, trip.days), ..trip };
    damaged.push(slots(made.ruler, &[&made.trips[..], &[twin]].concat()));
    let mut calls = Vec::new();
    for filled in damaged {
        let index = words(&filled, entry_words(&filled.originals), entry_words(&filled.replicas));
        calls.extend(index.map(|index| Call { ruler: made.ruler, request: Request::Check, index }));
    }
    calls
}
