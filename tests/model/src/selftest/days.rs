//! Document 02, T-07: which days a trip runs, by examples worked out by hand.

use super::examples::{bits, dirty_index, example_trips, listed, question, trip, EXAMPLE_ORIGINALS, EXAMPLE_REPLICAS, M, RULER};
use super::report::Report;
use crate::call::{probe_answer, MOST_ORIGINALS, MOST_TABLE};
use crate::model::ask::{ask, Question};
use crate::model::build::build;
use crate::model::check::check;
use crate::model::days::{EVERY_DAY, LAST_DAY};
use crate::model::edit::{add, remove};
use crate::model::index::{refusal, refusal_with, Index, ACCEPTED};
use crate::model::relation::{CODES, G_OVERLAPS};
use crate::model::trip::{trips_of, words_of, Trip, ENTRY_WORDS};
use crate::model::view::{census, run};

/// Days 0 to 6 are Monday to Sunday.
const WORKING_DAYS: u32 = 0b001_1111;
const WEEKEND: u32 = 0b110_0000;
const FRIDAY: u32 = 4;
const SATURDAY: u32 = 5;
const SUNDAY: u32 = 6;
const NEXT_MONDAY: u32 = 7;

pub fn days(report: &mut Report) {
    a_week(report);
    first_and_last_day(report);
    order_of_refusals(report);
    room(report);
    no_index(report);
    all_trips_whatever_their_days(report);
    order_in_a_slot(report);
    document_01_by_days(report);
    lines(report);
}

fn on(days: u32, trip: Trip) -> Trip {
    Trip { days, ..trip }
}

fn index_of(rows: &[Trip]) -> Index {
    let mut index = dirty_index(M, ENTRY_WORDS * (rows.len() + 1), 6 * ENTRY_WORDS);
    build(RULER, &words_of(rows), &mut index);
    index
}

fn at(day: u32, question: Question) -> Question {
    Question { day, ..question }
}

/// A trip at the weekend, one with the same times on working days, and one every day.
fn a_week(report: &mut Report) {
    let rows = [on(WEEKEND, trip(1, 21, 38)), on(WORKING_DAYS, trip(2, 21, 38)), trip(3, 30, 31)];
    let index = index_of(&rows);
    report.expect(check(RULER, &index) == ACCEPTED, "the same times on disjoint days");
    let mut lists = |day: u32, code: u32, ids: &[u32]| {
        let given = listed(RULER, &index, at(day, question(code, 21, 38)));
        report.expect(given == Ok(ids.to_vec()), &format!("day {}, code {}: {:?}", day, code, given));
    };
    lists(0, G_OVERLAPS, &[2, 3]);
    lists(FRIDAY, G_OVERLAPS, &[2, 3]);
    lists(SATURDAY, G_OVERLAPS, &[1, 3]);
    lists(SUNDAY, G_OVERLAPS, &[1, 3]);
    lists(NEXT_MONDAY, G_OVERLAPS, &[3]);
    lists(LAST_DAY, G_OVERLAPS, &[3]);
    lists(0, 0, &[2]);
    lists(SATURDAY, 0, &[1]);
    lists(NEXT_MONDAY, 0, &[]);
    lists(SATURDAY, 9, &[3]);
}

/// Day d is the bit of value 2^d.
fn first_and_last_day(report: &mut Report) {
    let rows = [on(1, trip(1, 5, 5)), on(2, trip(2, 5, 5)), on(1 << 30, trip(3, 5, 5)), on(2_147_483_648, trip(4, 5, 5))];
    let index = index_of(&rows);
    for day in 0..=LAST_DAY {
        let right = match day {
            0 => vec![1],
            1 => vec![2],
            30 => vec![3],
            31 => vec![4],
            _ => vec![],
        };
        let given = listed(RULER, &index, at(day, question(G_OVERLAPS, 0, 63)));
        report.expect(given == Ok(right), &format!("one trip a day, day {}: {:?}", day, given));
    }
    for day in [32, 33, 63, 64, 256, 1 << 31, u32::MAX] {
        let given = listed(RULER, &index, at(day, question(G_OVERLAPS, 0, 63)));
        report.expect(given == Err(17), &format!("day {} is none: {:?}", day, given));
    }
}

/// Question: 9, 4, 5, 17, 7. Add: 2, 4, 5, 6, 16, 7. Those of build are among the readings.
fn order_of_refusals(report: &mut Report) {
    let index = index_of(&example_trips());
    let mut asked = |question: Question, number: u32| {
        let mut answers = vec![5; 1];
        let given = ask(RULER, question, &index, &mut answers);
        let same = given == (refusal(number), 0) && answers == vec![5; 1];
        report.expect(same, &format!("{:?}: {:?}", question, given));
    };
    asked(at(32, question(14, 64, 2)), 9);
    asked(at(32, question(13, 64, 2)), 4);
    asked(at(32, question(13, 3, 2)), 5);
    asked(at(32, question(13, 0, 63)), 17);
    let full = |rows: &[Trip]| {
        let mut index = dirty_index(M, EXAMPLE_ORIGINALS, EXAMPLE_REPLICAS);
        build(RULER, &words_of(rows), &mut index);
        index
    };
    let tight = full(&example_trips());
    let mut added = |row: Trip, number: u32| {
        let mut edited = tight.clone();
        let given = add(RULER, row, &mut edited);
        report.expect(given == refusal(number) && edited == tight, &format!("{:?}: {:?}", row, given));
    };
    added(on(0, trip(7, 64, 2)), 4);
    added(on(0, trip(7, 3, 2)), 5);
    added(on(0, trip(7, 2, 2)), 6);
    added(on(0, trip(8, 2, 2)), 16);
    added(on(1, trip(8, 2, 2)), 7);
    added(on(1, trip(7, 21, 38)), 6);
    let rows: Vec<Trip> = (0..4096).map(|id| trip(id, 0, 0)).collect();
    let mut most = dirty_index(0, ENTRY_WORDS * 4096, 0);
    report.expect(build(bits(1, 0), &words_of(&rows), &mut most) == ACCEPTED, "16,384 words of 4,096 rows");
    report.expect(add(bits(1, 0), on(0, trip(9999, 0, 0)), &mut most) == refusal(2), "2 before 16");
}

/// 7's detail counts the trips of the one day.
fn room(report: &mut Report) {
    let rows = [on(1, trip(1, 5, 5)), on(3, trip(2, 5, 5)), on(6, trip(3, 5, 5)), on(4, trip(4, 5, 5))];
    let index = index_of(&rows);
    let mut one = vec![9; 1];
    let all = question(G_OVERLAPS, 0, 63);
    report.expect(ask(RULER, all, &index, &mut one) == (refusal_with(7, 2), 0), "two of four trips on day 0");
    report.expect(ask(RULER, at(3, all), &index, &mut []) == (ACCEPTED, 0), "none on day 3 needs no room");
    let mut two = vec![9; 2];
    report.expect(ask(RULER, at(2, all), &index, &mut two) == (ACCEPTED, 2) && two == vec![3, 4], "a list for the day's trips");
}

/// Zero words, and a replica with another word than its original.
fn no_index(report: &mut Report) {
    let good = index_of(&[on(6, trip(7, 21, 38)), on(5, trip(3, 20, 20))]);
    let mut changed = |what: &str, change: fn(&mut Trip), originals: bool, replicas: bool, number: u32| {
        let mut index = good.clone();
        if originals {
            change_entries(&mut index.originals, change);
        }
        if replicas {
            change_entries(&mut index.replicas, change);
        }
        report.expect(check(RULER, &index).number == number, what);
    };
    let zero: fn(&mut Trip) = |trip| trip.days = 0;
    let one_bit: fn(&mut Trip) = |trip| trip.days ^= 1 << LAST_DAY;
    changed("a zero word of an original", zero, true, false, 8);
    changed("a zero word of a replica", zero, false, true, 8);
    changed("zero words of a whole trip", zero, true, true, 8);
    changed("one bit of an original", one_bit, true, false, 8);
    changed("one bit of a replica", one_bit, false, true, 8);
    changed("one bit of a whole trip: another table's index", one_bit, true, true, 0);
}

/// Changes the entries of trip 7.
fn change_entries(arena: &mut [u32], change: fn(&mut Trip)) {
    let mut entries = trips_of(arena);
    entries.iter_mut().filter(|entry| entry.id == 7).for_each(change);
    let words = words_of(&entries);
    arena[..words.len()].copy_from_slice(&words);
}

/// Census, run and remove.
fn all_trips_whatever_their_days(report: &mut Report) {
    let rows: Vec<Trip> = example_trips().iter().zip([1, 2, 1 << 31, 6]).map(|(trip, days)| on(days, *trip)).collect();
    let (index, every_day) = (index_of(&rows), index_of(&example_trips()));
    report.expect(census(RULER, &index) == census(RULER, &every_day), "the census counts the trips of all days");
    let seven = on(1, trip(7, 21, 38)).words().to_vec();
    report.expect(run(RULER, 3, 3, 3, &index) == (ACCEPTED, seven), "a run shows the four words");
    let mut edited = index.clone();
    for row in &rows {
        report.expect(remove(RULER, row.id, &mut edited) == ACCEPTED, "a removal of a trip of any day");
    }
    for row in &rows {
        report.expect(add(RULER, *row, &mut edited) == ACCEPTED, "and its addition");
    }
    report.expect(edited == index, "the words are as before");
    report.expect(remove(RULER, 7, &mut edited) == ACCEPTED, "a removal");
    let added = add(RULER, on(2, trip(7, 21, 38)), &mut edited);
    report.expect(added == ACCEPTED && edited != index, "on another day it is another trip");
}

/// "The day word never decides": with other day words the ids stand in the same places.
fn order_in_a_slot(report: &mut Report) {
    let times: Vec<Trip> = (1..=4).map(|id| trip(id, 21, 38)).collect();
    let ids = |days: [u32; 4]| {
        let rows: Vec<Trip> = times.iter().zip(days).map(|(trip, days)| on(days, *trip)).collect();
        let mut index = dirty_index(M, 4 * ENTRY_WORDS, 8 * ENTRY_WORDS);
        build(RULER, &words_of(&rows), &mut index);
        let of = |arena: &[u32]| trips_of(arena).iter().map(|entry| entry.id).collect::<Vec<u32>>();
        (index.directory.clone(), of(&index.originals), of(&index.replicas))
    };
    let right = ids([EVERY_DAY; 4]);
    report.expect(right.1 == vec![1, 2, 3, 4] && right.2 == vec![1, 2, 3, 4, 1, 2, 3, 4], "by id");
    for days in [[4, 3, 2, 1], [1 << 31, 1, 1 << 30, 2], [7, 7, 1, 9]] {
        report.expect(ids(days) == right, &format!("the day words {:?} decide nothing", days));
    }
}

/// The example's questions on day 0 list the same ids whatever bits are set beside bit 0, and on another day none.
fn document_01_by_days(report: &mut Report) {
    let every_day = index_of(&example_trips());
    let rows: Vec<Trip> = example_trips().iter().zip([1, 3, 5, 1 << 31 | 1]).map(|(trip, days)| on(days, *trip)).collect();
    let index = index_of(&rows);
    for start in 0..64 {
        for end in start..64 {
            for code in 0..CODES {
                let asked = question(code, start, end);
                report.expect(listed(RULER, &index, asked) == listed(RULER, &every_day, asked), "bit 0 is day 0");
                report.expect(listed(RULER, &index, at(30, asked)) == Ok(vec![]), "a day without trips");
            }
        }
    }
}

/// The examples of the test port's own page, and lines of the old form.
fn lines(report: &mut Report) {
    let mut answers = |line: &str, right: &str| {
        let given = probe_answer(line);
        report.expect(given == right, &format!("{}: {}", line, given));
    };
    answers("build 1 0 4 5 0 1 1 6 9 9 9 9 9 9 5 9 9 9 9 9 0", "0 0 6 0 1 1 0 0 0 5 5 0 1 1 0 0");
    answers("build spread 0 10 20 4 5 10 20 3 6 9 9 9 9 9 9 4 9 9 9 9 0", "0 0 6 0 1 1 0 0 0 4 5 10 20 3 0");
    answers("build spread 0 20 20 4 5 20 20 3 6 9 9 9 9 9 9 4 9 9 9 9 0", "1 0 6 9 9 9 9 9 9 4 9 9 9 9 0");
    answers(
        "add 1 0 7 1 1 2147483648 6 0 1 1 0 0 0 8 5 0 1 1 0 0 0 0 0",
        "0 0 6 0 2 2 0 0 0 8 5 0 1 1 7 1 1 2147483648 0",
    );
    answers("ask 1 0 13 0 1 31 6 0 2 2 0 0 0 8 5 0 1 1 7 1 1 2147483648 0 2 9 9", "0 0 1 2 7 9");
    answers("ask 1 0 13 0 1 32 6 0 2 2 0 0 0 8 5 0 1 1 7 1 1 2147483648 0 2 9 9", "17 0 0 2 9 9");
    answers("build 1 0 4 5 0 1 0 6 9 9 9 9 9 9 4 9 9 9 9 0", "16 0 6 9 9 9 9 9 9 4 9 9 9 9 0");
    answers("build 1 0 8 5 0 1 1 6 0 1 0 6 9 9 9 9 9 9 0 0", "16 1 6 9 9 9 9 9 9 0 0");
    answers("build 1 0 3 5 0 1 6 9 9 9 9 9 9 4 9 9 9 9 0", "2 0 6 9 9 9 9 9 9 4 9 9 9 9 0");
    answers("add 1 0 7 1 1 0 6 0 0 0 0 0 0 0 0", "16 0 6 0 0 0 0 0 0 0 0");
    answers("check 1 0 6 0 1 1 0 0 0 4 5 0 1 0 0", "8 0");
    for line in [
        "add 1 0 7 1 1 6 0 0 0 0 0 0 0 0",
        "add 1 0 7 1 1 1 1 6 0 0 0 0 0 0 0 0",
        "add 1 0 7 1 1 4294967296 6 0 0 0 0 0 0 0 0",
        "add 1 0 7 1 1 -1 6 0 0 0 0 0 0 0 0",
        "ask 1 0 13 0 1 6 0 0 0 0 0 0 0 0 2 9 9",
        "ask 1 0 13 0 1 0 0 6 0 0 0 0 0 0 0 0 2 9 9",
        "ask 1 0 13 0 1 4294967296 6 0 0 0 0 0 0 0 0 2 9 9",
    ] {
        answers(line, "bad line");
    }
    let of_length = |words: usize| format!("{}{}", words, " 0".repeat(words));
    let table = |words: usize| format!("build 1 0 {} 0 0 0", of_length(words));
    answers(&table(MOST_TABLE), "2 0 0 0 0");
    answers(&table(MOST_TABLE + 1), "bad line");
    let originals = |words: usize| format!("check 1 0 6 0 0 0 0 0 0 {} 0", of_length(words));
    answers(&originals(MOST_ORIGINALS), "0 0");
    answers(&originals(MOST_ORIGINALS + 1), "bad line");
}
