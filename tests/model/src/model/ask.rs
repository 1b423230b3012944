//! Ask: 1, 3, 8, 9, 4, 5, 17, 7. The answer is every trip of the table tried in turn.

use super::build::times_refusal;
use super::check::table_of;
use super::days::{is_day, runs_on};
use super::index::{refusal, refusal_with, Index, Reply, ACCEPTED};
use super::places::places;
use super::relation::{related, Span, CODES, G_OVERLAPS};
use super::ruler::Ruler;
use super::trip::Trip;
use crate::faults::{planted, Fault};

/// A window together with one relationship, by its code, and a day. The numbers may be any words.
#[derive(Clone, Copy, Debug, PartialEq)]
pub struct Question {
    pub code: u32,
    pub start: u32,
    pub end: u32,
    pub day: u32,
}

/// The reply and the count; a refused question counts 0 and leaves the list as it was.
pub fn ask(ruler: Ruler, question: Question, index: &Index, answers: &mut [u32]) -> (Reply, u32) {
    let trips = match table_of(ruler, index) {
        Ok(trips) => trips,
        Err(refused) => return (refused, 0),
    };
    if let Some(number) = question_refusal(ruler, question) {
        return (refusal(number), 0);
    }
    let ids = ids_to_list(ruler, question, &trips);
    if ids.len() > answers.len() {
        return (refusal_with(7, detail_of_room(question, &trips, ids.len())), 0);
    }
    if planted(Fault::SeventeenAfterSeven) && !is_day(question.day) {
        return (refusal(17), 0);
    }
    for (k, id) in ids.iter().enumerate() {
        answers[k] = *id;
    }
    let more = if planted(Fault::CountOffByOne) { 1 } else { 0 };
    (ACCEPTED, ids.len() as u32 + more)
}

/// What is wrong with a question by itself: 9, 4, 5, 17 in this order.
fn question_refusal(ruler: Ruler, question: Question) -> Option<u32> {
    if question.code >= CODES {
        return Some(9);
    }
    let bad_times = times_refusal(ruler, question.start, question.end);
    let bad_day = !is_day(question.day) && !planted(Fault::SeventeenAfterSeven);
    if planted(Fault::SeventeenBeforeFive) && bad_times == Some(5) && bad_day {
        return Some(17);
    }
    if bad_times.is_some() {
        return bad_times;
    }
    if bad_day {
        return Some(17);
    }
    None
}

/// "Or matches exceed the answer list (detail: the matches)."
fn detail_of_room(question: Question, trips: &[Trip], matches: usize) -> usize {
    if planted(Fault::LostDetail) {
        return 0;
    }
    if planted(Fault::AllDaysCounted) {
        return trips.iter().filter(|trip| stands_so(question, trip)).count();
    }
    matches
}

fn ids_to_list(ruler: Ruler, question: Question, trips: &[Trip]) -> Vec<u32> {
    if question.code == G_OVERLAPS {
        if planted(Fault::CellsCompared) {
            return matches_by_cell(ruler, question, trips);
        }
        if planted(Fault::ReplicasListed) {
            return matches_by_partition(ruler, question, trips);
        }
        if planted(Fault::DayIgnoredBetween) {
            return matches_of_any_day_between(ruler, question, trips);
        }
    }
    matches(question, trips)
}

/// The ids of the trips that stand so to the window and run that day, ascending.
pub fn matches(question: Question, trips: &[Trip]) -> Vec<u32> {
    let mut ids = Vec::new();
    for trip in trips {
        if stands_so(question, trip) && runs_on(trip.days, question.day) {
            ids.push(trip.id);
        }
    }
    ids.sort();
    ids
}

fn stands_so(question: Question, trip: &Trip) -> bool {
    let window = Span { st: question.start, end: question.end };
    related(question.code, window, Span { st: trip.start, end: trip.end })
}

/// Only for the planted fault: trips that share a cell with the window.
fn matches_by_cell(ruler: Ruler, question: Question, trips: &[Trip]) -> Vec<u32> {
    let cell = |time: u32| ruler.cell(ruler.m(), time);
    let mut cells = Vec::new();
    for trip in trips {
        cells.push(Trip { start: cell(trip.start), end: cell(trip.end), ..*trip });
    }
    matches(Question { start: cell(question.start), end: cell(question.end), ..question }, &cells)
}

/// Only for the planted fault: a trip for each of its partitions that the window touches.
fn matches_by_partition(ruler: Ruler, question: Question, trips: &[Trip]) -> Vec<u32> {
    let mut ids = Vec::new();
    for trip in trips {
        if matches(question, &[*trip]).is_empty() {
            continue;
        }
        for place in places(ruler, trip) {
            let (first, last) = relevant_partitions(ruler, question, place.level);
            if first <= place.partition && place.partition <= last {
                ids.push(trip.id);
            }
        }
    }
    ids.sort();
    ids
}

/// Only for the planted fault: the stretch of originals strictly between the first and the last relevant partition of a level
/// is listed as it stands.
fn matches_of_any_day_between(ruler: Ruler, question: Question, trips: &[Trip]) -> Vec<u32> {
    let between = |trip: &Trip| {
        places(ruler, trip).iter().any(|place| {
            let (first, last) = relevant_partitions(ruler, question, place.level);
            place.original && first < place.partition && place.partition < last
        })
    };
    let mut ids = matches(question, trips);
    for trip in trips {
        if between(trip) && !runs_on(trip.days, question.day) {
            ids.push(trip.id);
        }
    }
    ids.sort();
    ids
}

/// The first and the last partition of a level that a window touches.
fn relevant_partitions(ruler: Ruler, question: Question, level: u32) -> (u32, u32) {
    (ruler.cell(level, question.start), ruler.cell(level, question.end))
}
