//! The checked examples of document 01, all of them, "with every bit set and day 0".

use super::report::Report;
use crate::model::ask::{ask, Question};
use crate::model::build::build;
use crate::model::check::check;
use crate::model::days::EVERY_DAY;
use crate::model::edit::add;
use crate::model::index::{directory_length, refusal, Index, ACCEPTED};
use crate::model::places::{places, Place};
use crate::model::ruler::Ruler;
use crate::model::trip::{words_of, Trip, ENTRY_WORDS};
use crate::model::view::{census, run};

pub const M: u32 = 4;
pub const RULER: Ruler = bits(6, M);

pub const fn bits(w: u32, m: u32) -> Ruler {
    Ruler::Bits { w, m }
}

pub const fn spread(m: u32, lo: u32, hi: u32) -> Ruler {
    Ruler::Spread { m, lo, hi }
}

pub fn example_trips() -> Vec<Trip> {
    vec![trip(7, 21, 38), trip(3, 20, 20), trip(9, 0, 63), trip(4, 39, 40)]
}

pub fn trip(id: u32, start: u32, end: u32) -> Trip {
    Trip { id, start, end, days: EVERY_DAY }
}

/// A question on day 0.
pub fn question(code: u32, start: u32, end: u32) -> Question {
    Question { code, start, end, day: 0 }
}

/// The words that the entries of these trips take: four originals and three replicas.
pub const EXAMPLE_ORIGINALS: usize = 4 * ENTRY_WORDS;
pub const EXAMPLE_REPLICAS: usize = 3 * ENTRY_WORDS;

/// Dirty buffers, so that a word that build leaves alone would show.
pub fn dirty_index(m: u32, originals: usize, replicas: usize) -> Index {
    Index {
        directory: vec![77; directory_length(m)],
        originals: vec![78; originals],
        replicas: vec![79; replicas],
    }
}

pub fn example_index() -> Index {
    let mut index = dirty_index(M, EXAMPLE_ORIGINALS + 3, EXAMPLE_REPLICAS + 3);
    build(RULER, &words_of(&example_trips()), &mut index);
    index
}

/// The ids that a question on day 0 lists; a refusal is given by its number.
pub fn asked(ruler: Ruler, index: &Index, code: u32, start: u32, end: u32) -> Result<Vec<u32>, u32> {
    listed(ruler, index, question(code, start, end))
}

pub fn listed(ruler: Ruler, index: &Index, question: Question) -> Result<Vec<u32>, u32> {
    let mut answers = vec![0; 8];
    let (reply, count) = ask(ruler, question, index, &mut answers);
    if reply != ACCEPTED {
        return Err(reply.number);
    }
    answers.truncate(count as usize);
    Ok(answers)
}

pub fn examples(report: &mut Report) {
    places_of_the_examples(report);
    questions(report);
    counts(report);
    words_of_small_indices(report);
    past_midnight(report);
}

fn place(level: u32, partition: u32, original: bool, inside: bool) -> Place {
    Place { level, partition, original, inside }
}

fn places_of_the_examples(report: &mut Report) {
    let of = |id: u32, start: u32, end: u32| places(RULER, &trip(id, start, end));
    let seven = vec![place(3, 3, false, false), place(3, 4, false, true), place(4, 5, true, false)];
    report.expect(of(7, 21, 38) == seven, "places of trip 7");
    report.expect(of(3, 20, 20) == vec![place(4, 5, true, true)], "places of trip 3");
    report.expect(of(9, 0, 63) == vec![place(0, 0, true, true)], "places of trip 9");
    let four = vec![place(4, 9, true, false), place(4, 10, false, true)];
    report.expect(of(4, 39, 40) == four, "places of trip 4");
}

fn questions(report: &mut Report) {
    let index = example_index();
    report.expect(check(RULER, &index) == ACCEPTED, "the example's index passes");
    let mut answer = |code: u32, start: u32, end: u32, ids: &[u32]| {
        let given = asked(RULER, &index, code, start, end);
        let what = format!("code {} [{},{}]: {:?} for {:?}", code, start, end, given, ids);
        report.expect(given == Ok(ids.to_vec()), &what);
    };
    answer(13, 22, 23, &[7, 9]);
    answer(13, 38, 39, &[4, 7, 9]);
    answer(11, 0, 20, &[4, 7]);
    answer(12, 39, 63, &[3, 7]);
    answer(9, 19, 39, &[3, 7]);
    answer(7, 18, 30, &[7]);
    answer(10, 1, 62, &[9]);
    answer(3, 30, 38, &[7]);
    answer(13, 63, 63, &[9]);
    let mut refused = |start: u32, end: u32, number: u32| {
        let given = asked(RULER, &index, 13, start, end);
        report.expect(given == Err(number), &format!("window [{},{}]: {:?} for {}", start, end, given, number));
    };
    refused(64, 3, 4);
    refused(40, 39, 5);
    refused(63, 64, 4);
    let mut edited = example_index();
    let reply = add(RULER, trip(5, 0, 64), &mut edited);
    report.expect(reply == refusal(4) && edited == index, "a trip that ends at 64 is refused");
}

fn counts(report: &mut Report) {
    let mut right = [[0; 4]; 11];
    right[0] = [1, 0, 0, 0];
    right[3] = [0, 0, 1, 1];
    right[4] = [1, 2, 1, 0];
    let (reply, given) = census(RULER, &example_index());
    report.expect(reply == ACCEPTED && given == right, "census of the example");
    let (reply, shown) = run(RULER, 3, 4, 2, &example_index());
    report.expect(reply == ACCEPTED && shown == trip(7, 21, 38).words(), "run of level 3, partition 4, R_in");
}

fn words_of_small_indices(report: &mut Report) {
    let mut index = dirty_index(1, ENTRY_WORDS, 0);
    let reply = build(bits(1, 1), &trip(5, 0, 0).words(), &mut index);
    report.expect(reply == ACCEPTED, "w = 1, m = 1 is accepted");
    report.expect(index.directory[..7] == [0, 0, 0, 1, 1, 1, 1], "w = 1, m = 1: originals half");
    report.expect(index.directory[7..] == [0; 7], "w = 1, m = 1: replicas half");
    report.expect(index.originals == trip(5, 0, 0).words(), "w = 1, m = 1: the entry");

    let mut index = dirty_index(0, ENTRY_WORDS, 0);
    let reply = build(bits(1, 0), &trip(5, 0, 1).words(), &mut index);
    report.expect(reply == ACCEPTED && index.directory == vec![0, 1, 1, 0, 0, 0], "w = 1, m = 0");

    for (originals, replicas) in [(0, 0), (4, 5)] {
        let mut index = dirty_index(M, originals, replicas);
        let reply = build(RULER, &[], &mut index);
        let all_zero = index.directory.iter().chain(&index.originals).chain(&index.replicas).all(|word| *word == 0);
        report.expect(reply == ACCEPTED && all_zero, "the empty table");
        report.expect(check(RULER, &index) == ACCEPTED, "the empty table passes");
    }
}

fn past_midnight(report: &mut Report) {
    let (start, end) = (23 * 3600 + 40 * 60, 25 * 3600 + 10 * 60);
    report.expect((start, end) == (85_200, 90_600), "23:40:00 to 25:10:00 in seconds");
    let mut index = dirty_index(10, ENTRY_WORDS, 80);
    let reply = build(bits(18, 10), &trip(1, start, end).words(), &mut index);
    report.expect(reply == ACCEPTED, "a trip past midnight is accepted");
    report.expect(asked(bits(18, 10), &index, 13, 88_200, 88_800) == Ok(vec![1]), "it is found after midnight");
    report.expect(asked(bits(18, 10), &index, 13, 1_800, 2_400) == Ok(vec![]), "it is not found in the early morning");
    let mut wrapped = dirty_index(10, ENTRY_WORDS, 80);
    let reply = build(bits(18, 10), &trip(1, 85_200, 4_200).words(), &mut wrapped);
    report.expect(reply == refusal(5) && wrapped == dirty_index(10, ENTRY_WORDS, 80), "wrapped, it is refused");
}
