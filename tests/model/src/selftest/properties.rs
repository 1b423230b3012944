//! Properties over drawn tables: builds pass the check, edits equal builds, questions equal a scan that is
//! written in another way, runs and census equal the slots.

use super::report::Report;
use crate::generate::{made, time, trips, Made, FULL};
use crate::model::ask::{ask, Question};
use crate::model::build::build;
use crate::model::check::check;
use crate::model::edit::{add, remove};
use crate::model::index::{Index, ACCEPTED};
use crate::model::layout::slots;
use crate::model::ruler::Ruler;
use crate::model::trip::{words_of, Trip, ENTRY_WORDS};
use crate::model::view::{census, run};
use crate::random::Random;
use std::cmp::Ordering;

pub fn properties(report: &mut Report) {
    let mut random = Random::new(11);
    for _ in 0..300 {
        let made = made(&mut random, FULL);
        builds_pass(report, &mut random, &made);
        questions_equal_a_scan(report, &mut random, &made);
        runs_equal_the_slots(report, &made);
    }
    for _ in 0..60 {
        history_equals_build(report, &mut random);
    }
}

fn builds_pass(report: &mut Report, random: &mut Random, made: &Made) {
    report.expect(check(made.ruler, &made.index) == ACCEPTED, "an index that was laid out passes");
    let mut rows = made.trips.clone();
    random.shuffle(&mut rows);
    let again = built(made.ruler, &rows, &made.index);
    report.expect(again == Some(made.index.clone()), "the order of rows has no influence");
}

/// The build of these trips into dirty buffers as long as those of `like`.
fn built(ruler: Ruler, trips: &[Trip], like: &Index) -> Option<Index> {
    let mut index = Index {
        directory: vec![9; like.directory.len()],
        originals: vec![9; like.originals.len()],
        replicas: vec![9; like.replicas.len()],
    };
    if build(ruler, &words_of(trips), &mut index) == ACCEPTED {
        Some(index)
    } else {
        None
    }
}

/// Additions and removals, each followed by a build of the trips that there should be. The trips are kept
/// here in a list of their own and never read from the index.
fn history_equals_build(report: &mut Report, random: &mut Random) {
    let first = made(random, FULL);
    let mut present = first.trips.clone();
    let mut index = first.index.clone();
    let ruler = first.ruler;
    for new in trips(random, ruler, 20) {
        let before = index.clone();
        let wanted: Vec<Trip> = present.iter().cloned().chain(Some(new)).collect();
        let reply = add(ruler, new, &mut index);
        match built(ruler, &wanted, &index) {
            Some(again) => {
                report.expect(reply == ACCEPTED && index == again, "an addition equals a build");
                present = wanted;
            }
            None => report.expect(reply.number != 0 && index == before, "a refused addition leaves the words"),
        }
        if !present.is_empty() && random.once_in(2) {
            let row = random.below(present.len());
            let gone = present.remove(row);
            let reply = remove(ruler, gone.id, &mut index);
            let again = built(ruler, &present, &index);
            report.expect(reply == ACCEPTED && Some(index.clone()) == again, "a removal equals a build");
        }
        report.expect(check(ruler, &index) == ACCEPTED, "an edited index passes");
    }
}

fn questions_equal_a_scan(report: &mut Report, random: &mut Random, made: &Made) {
    for code in 0..14 {
        let (mut start, mut end) = (time(random, made.ruler, &[]), time(random, made.ruler, &[]));
        if !made.trips.is_empty() && !random.once_in(3) {
            start = random.pick(&made.trips).start;
            let trip = random.pick(&made.trips);
            end = if random.once_in(2) { trip.start } else { trip.end };
        }
        if start > end {
            let earlier = end;
            end = start;
            start = earlier;
        }
        let day = random.between(0, 31);
        let listed = |trip: &&Trip| stands_so(code, start, end, trip) && day_list(trip.days).contains(&day);
        let mut right: Vec<u32> = made.trips.iter().filter(listed).map(|trip| trip.id).collect();
        right.sort();
        let mut answers = vec![123; right.len() + 1];
        let (reply, count) = ask(made.ruler, Question { code, start, end, day }, &made.index, &mut answers);
        let same = reply == ACCEPTED && count as usize == right.len() && answers[..right.len()] == right[..];
        report.expect(same && answers[right.len()] == 123, &format!("code {} equals a scan", code));
    }
}

/// The days of a word, by taking halves of it.
fn day_list(days: u32) -> Vec<u32> {
    let mut found = Vec::new();
    let (mut left, mut day) = (days, 0);
    while left > 0 {
        if left % 2 == 1 {
            found.push(day);
        }
        left /= 2;
        day += 1;
    }
    found
}

/// The relationships said a second time, by how start stands to start, end to end and so on. The first thirteen
/// are Allen's, so the four comparisons settle which of them it is, of points too.
fn stands_so(code: u32, start: u32, end: u32, trip: &Trip) -> bool {
    use self::Ordering::{Equal, Greater, Less};
    let starts = start.cmp(&trip.start);
    let ends = end.cmp(&trip.end);
    let end_to_start = end.cmp(&trip.start);
    let start_to_end = start.cmp(&trip.end);
    match code {
        0 => (starts, ends) == (Equal, Equal),
        1 => (starts, ends) == (Equal, Less),
        2 => (starts, ends) == (Equal, Greater),
        3 => (starts, ends) == (Greater, Equal),
        4 => (starts, ends) == (Less, Equal),
        5 => (starts, ends, end_to_start) == (Less, Less, Equal),
        6 => (starts, ends, start_to_end) == (Greater, Greater, Equal),
        7 => (starts, ends, end_to_start) == (Less, Less, Greater),
        8 => (starts, ends, start_to_end) == (Greater, Greater, Less),
        9 => (starts, ends) == (Less, Greater),
        10 => (starts, ends) == (Greater, Less),
        11 => end_to_start == Less,
        12 => start_to_end == Greater,
        _ => end_to_start != Less && start_to_end != Greater,
    }
}

/// The runs, one after the other, are the arenas; the census counts them.
fn runs_equal_the_slots(report: &mut Report, made: &Made) {
    if made.ruler.m() > 6 {
        return; // each run checks the whole index: too slow on deep levels
    }
    let filled = slots(made.ruler, &made.trips);
    let mut counts = [[0; 4]; 11];
    let mut slot = 0;
    for level in 0..=made.ruler.m() {
        for partition in 0..1u32 << level {
            for subdivision in 0..4 {
                let half = if subdivision < 2 { &filled.originals } else { &filled.replicas };
                let right = words_of(&half[slot + subdivision as usize % 2]);
                counts[level as usize][subdivision as usize] += (right.len() / ENTRY_WORDS) as u32;
                let given = run(made.ruler, level, partition, subdivision, &made.index);
                report.expect(given == (ACCEPTED, right), "a run is its slot");
            }
            slot += 2;
        }
    }
    report.expect(census(made.ruler, &made.index) == (ACCEPTED, counts), "the census counts the runs");
}
