//! Places where document 01 leaves room, each as it is read here; and the order of refusals.

use super::examples::{
    bits, dirty_index, example_index, example_trips, question, spread, trip, EXAMPLE_ORIGINALS, EXAMPLE_REPLICAS, M, RULER,
};
use super::report::Report;
use crate::model::ask::ask;
use crate::model::build::build;
use crate::model::check::check;
use crate::model::edit::{add, remove};
use crate::model::index::{refusal, refusal_with, Index, Reply, ACCEPTED};
use crate::model::ruler::Ruler;
use crate::model::trip::{words_of, Trip, ENTRY_WORDS};
use crate::model::view::{census, run};

pub fn readings(report: &mut Report) {
    order_in_build(report);
    order_on_an_index(report);
    answer_lists(report);
    rooms(report);
    runs(report);
}

/// Builds into dirty buffers; a refusal must leave them.
fn built(report: &mut Report, ruler: Ruler, table: &[u32], mut index: Index, right: Reply, what: &str) {
    let before = index.clone();
    let reply = build(ruler, table, &mut index);
    let kept = reply == ACCEPTED || index == before;
    report.expect(reply == right && kept, &format!("{}: {:?} for {:?}", what, reply, right));
}

fn order_in_build(report: &mut Report) {
    let good = dirty_index(2, 30, 30);
    let mut short = good.clone();
    short.directory.pop();
    let refused = |number: u32| refusal(number);
    built(report, bits(0, 0), &[1], short.clone(), refused(1), "1 before 2");
    built(report, bits(25, 2), &[], good.clone(), refused(1), "w = 25");
    built(report, bits(24, 11), &[], good.clone(), refused(1), "m = 11");
    built(report, bits(3, 4), &[], good.clone(), refused(1), "m above w");
    built(report, bits(u32::MAX, 0), &[], good.clone(), refused(1), "the largest w");
    built(report, bits(4, u32::MAX), &[], good.clone(), refused(1), "the largest m");
    built(report, bits(4, 2), &[1], short.clone(), refused(2), "2 before 3");
    built(report, bits(4, 2), &[1, 0, 0], good.clone(), refused(2), "a row of three words");
    built(report, bits(4, 2), &[1, 9, 2, 1], short, refused(3), "3 before the rows");
    built(report, bits(4, 2), &[1, 0, 0, 1, 1, 16, 2, 0], good.clone(), refusal_with(4, 1), "4 before 5, 6 and 16");
    built(report, bits(4, 2), &[1, 0, 0, 1, 1, 3, 2, 0], good.clone(), refusal_with(5, 1), "5 before 6 and 16");
    built(report, bits(4, 2), &[1, 0, 0, 1, 1, 2, 2, 0], good.clone(), refusal_with(6, 1), "6 before 16");
    built(report, bits(4, 2), &[1, 0, 0, 1, 1, 0, 0, 2], good.clone(), refusal_with(6, 1), "6 on other days");
    built(report, bits(4, 2), &[1, 0, 0, 1, 2, 2, 2, 0], good.clone(), refusal_with(16, 1), "16");
    built(report, bits(4, 2), &[1, 0, 0, 0, 1, 16, 2, 0], good.clone(), refusal_with(16, 0), "16 of the first bad row");
    built(report, bits(4, 2), &[1, 3, 2, 1, 1, 16, 2, 1], good.clone(), refusal_with(5, 0), "the first bad row decides");
    built(report, bits(4, 2), &[1, 0, 0, 1, 1, 0, 0, 1], dirty_index(2, 0, 0), refusal_with(6, 1), "rows before 7");
    built(report, bits(4, 2), &[1, 0, 0, 1, 2, 0, 0, 0], dirty_index(2, 0, 0), refusal_with(16, 1), "16 before 7");
    built(report, bits(4, 2), &[1, 0, 0, 1], dirty_index(2, 3, 0), refused(7), "7 has no detail");
    built(report, bits(4, 2), &[1, 0, 11, 1], dirty_index(2, 4, 3), refused(7), "7 for the replicas");
    built(report, bits(4, 2), &[1, 0, 11, 1], dirty_index(2, 5, 7), ACCEPTED, "arenas of any length");
    let rows: Vec<Trip> = (0..4097).map(|id| trip(id, 0, 0)).collect();
    built(report, bits(4, 2), &words_of(&rows), dirty_index(2, 16_388, 0), refused(2), "4,097 rows");
    built(report, bits(4, 2), &words_of(&rows[..4096]), dirty_index(2, 16_384, 0), ACCEPTED, "4,096 rows");
}

/// All calls on an index share 1, 3, 8; what follows is each one's own.
fn order_on_an_index(report: &mut Report) {
    let good = example_index();
    let mut long = good.clone();
    long.directory.push(0);
    let mut broken = good.clone();
    broken.originals.swap(0, 1);
    let second = spread(M, 0, 63);
    let cases = [
        (bits(25, M), &long, 1),
        (RULER, &long, 3),
        (RULER, &broken, 8),
        (spread(M, 63, 63), &long, 1),
        (second, &long, 3),
        (second, &broken, 8),
    ];
    for (ruler, index, number) in cases {
        let right = refusal(number);
        report.expect(check(ruler, index) == right, "check: 1, 3, 8");
        let mut edited = index.clone();
        report.expect(add(ruler, trip(7, 99, 2), &mut edited) == right, "add: 1, 3, 8 first");
        report.expect(remove(ruler, 55, &mut edited) == right, "remove: 1, 3, 8 first");
        report.expect(edited == *index, "a refused edit leaves the words");
        let mut answers = vec![5; 2];
        report.expect(ask(ruler, question(99, 99, 2), index, &mut answers) == (right, 0), "ask: 1, 3, 8 first");
        report.expect(answers == vec![5; 2], "a refused question leaves the list");
        report.expect(run(ruler, 99, 99, 99, index) == (right, vec![]), "run: 1, 3, 8 first");
        report.expect(census(ruler, index) == (right, [[0; 4]; 11]), "census: 1, 3, 8 first");
    }
    let mut edited = good.clone();
    report.expect(add(RULER, trip(7, 64, 2), &mut edited) == refusal(4), "add: 4 before 5 and 6");
    report.expect(add(RULER, trip(7, 3, 2), &mut edited) == refusal(5), "add: 5 before 6");
    report.expect(add(RULER, trip(7, 2, 2), &mut edited) == refusal(6), "add: 6");
    report.expect(remove(RULER, 55, &mut edited) == refusal(10), "remove: 10");
    report.expect(edited == good, "refused edits leave the words");
    let mut none = vec![];
    report.expect(ask(RULER, question(14, 64, 2), &good, &mut none) == (refusal(9), 0), "ask: 9 before 4");
    report.expect(ask(RULER, question(u32::MAX, 0, 0), &good, &mut none) == (refusal(9), 0), "ask: the largest code");
}

fn answer_lists(report: &mut Report) {
    let index = example_index();
    let mut exact = vec![1; 4];
    report.expect(ask(RULER, question(13, 0, 63), &index, &mut exact) == (ACCEPTED, 4), "a list that is just long enough");
    report.expect(exact == vec![3, 4, 7, 9], "ids in ascending order");
    let mut short = vec![1; 3];
    report.expect(ask(RULER, question(13, 0, 63), &index, &mut short) == (refusal_with(7, 4), 0), "7 tells the matches");
    report.expect(short == vec![1; 3], "7 leaves the list");
    let mut long = vec![1; 6];
    report.expect(ask(RULER, question(13, 0, 63), &index, &mut long) == (ACCEPTED, 4), "a longer list");
    report.expect(long == vec![3, 4, 7, 9, 1, 1], "later words stay");
    let mut none: Vec<u32> = vec![];
    report.expect(ask(RULER, question(0, 5, 6), &index, &mut none) == (ACCEPTED, 0), "no match needs no room");
}

/// What counts as an index, and where room ends.
fn rooms(report: &mut Report) {
    let good = example_index();
    let mut longer = good.clone();
    longer.originals.push(0);
    longer.replicas.extend(&[0; ENTRY_WORDS]);
    report.expect(check(RULER, &longer) == ACCEPTED, "more zeros are the index of longer arenas");
    longer.replicas.push(1);
    report.expect(check(RULER, &longer) == refusal(8), "a spare word that is not 0");
    let mut cut = good.clone();
    cut.replicas.truncate(EXAMPLE_REPLICAS - 1);
    report.expect(check(RULER, &cut) == refusal(8), "an arena too short for what the directory claims: 8");

    let mut tight = dirty_index(M, EXAMPLE_ORIGINALS + 3, EXAMPLE_REPLICAS + 3);
    build(RULER, &words_of(&example_trips()), &mut tight);
    let before = tight.clone();
    report.expect(add(RULER, trip(1, 5, 5), &mut tight) == refusal(7), "no room for another original: 7, no detail");
    report.expect(tight == before, "7 leaves the words");
    report.expect(remove(RULER, 3, &mut tight) == ACCEPTED, "a removal");
    report.expect(add(RULER, trip(1, 8, 20), &mut tight) == refusal(7), "no room for the replicas: 7");
    report.expect(add(RULER, trip(3, 20, 20), &mut tight) == ACCEPTED, "freed room is taken again");
    report.expect(tight == before, "and the words are as before");

    let mut twice = example_trips();
    twice[1].id = 7;
    let mut index = dirty_index(M, EXAMPLE_ORIGINALS, EXAMPLE_REPLICAS);
    report.expect(build(RULER, &words_of(&twice), &mut index) == refusal_with(6, 1), "an id twice");

    let rows: Vec<Trip> = (0..4096).map(|id| trip(id, 0, 0)).collect();
    let mut full = dirty_index(0, 16_388, 0);
    build(bits(1, 0), &words_of(&rows), &mut full);
    report.expect(check(bits(1, 0), &full) == ACCEPTED, "4,096 trips pass");
    report.expect(add(bits(1, 0), trip(9999, 0, 0), &mut full) == refusal(2), "no 4,097th trip");
    report.expect(add(bits(1, 0), trip(0, 9, 3), &mut full) == refusal(2), "2 even for a bad row");
    // The 4,097th by hand: the directory claims it and the arena has it.
    full.directory = vec![0, 4097, 4097, 0, 0, 0];
    full.originals[16_384..].copy_from_slice(&trip(9999, 0, 0).words());
    report.expect(check(bits(1, 0), &full) == refusal(8), "4,097 originals are no index");
}

fn runs(report: &mut Report) {
    let index = example_index();
    let past = refusal(12);
    let mut refused = |level: u32, partition: u32, subdivision: u32| {
        let given = run(RULER, level, partition, subdivision, &index);
        let what = format!("run {} {} {} is past an end", level, partition, subdivision);
        report.expect(given == (past, vec![]), &what);
    };
    refused(5, 0, 0);
    refused(u32::MAX, 0, 0);
    refused(64, 0, 0);
    refused(0, 1, 0);
    refused(4, 16, 0);
    refused(4, u32::MAX, 0);
    refused(4, 15, 4);
    refused(4, 15, u32::MAX);
    report.expect(run(RULER, 4, 15, 3, &index) == (ACCEPTED, vec![]), "an empty run");
    report.expect(run(RULER, 4, 5, 0, &index) == (ACCEPTED, trip(3, 20, 20).words().to_vec()), "O_in");
    report.expect(run(RULER, 4, 5, 1, &index) == (ACCEPTED, trip(7, 21, 38).words().to_vec()), "O_aft");
    report.expect(run(RULER, 4, 10, 2, &index) == (ACCEPTED, trip(4, 39, 40).words().to_vec()), "R_in");
    report.expect(run(RULER, 3, 3, 3, &index) == (ACCEPTED, trip(7, 21, 38).words().to_vec()), "R_aft");
}
