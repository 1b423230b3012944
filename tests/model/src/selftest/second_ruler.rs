//! Document 02, T-09: the ruler of m, lo and hi, by examples worked out by hand and by its rule said another way.

use super::examples::{
    asked, bits, dirty_index, example_trips, question, spread, trip, EXAMPLE_ORIGINALS, EXAMPLE_REPLICAS, M, RULER,
};
use super::report::Report;
use crate::call::probe_answer;
use crate::model::ask::ask;
use crate::model::build::build;
use crate::model::check::check;
use crate::model::edit::{add, remove};
use crate::model::index::{refusal, refusal_with, Index, ACCEPTED};
use crate::model::places::places;
use crate::model::relation::CODES;
use crate::model::ruler::Ruler;
use crate::model::trip::{words_of, Trip};

pub fn second_ruler(report: &mut Report) {
    bounds(report);
    cells_of_an_example(report);
    cells_by_counting(report);
    long_products(report);
    times(report);
    words_by_hand(report);
    under_two_rulers(report);
    lines(report);
}

/// The level-m cell by counting: how many of the cells 1 to 2^m - 1 begin at the time or before it.
pub fn counted_cell(m: u32, lo: u32, hi: u32, time: u32) -> u32 {
    let last = (1u64 << m) - 1;
    let begun = |cell: &u64| cell * u64::from(hi - lo) <= u64::from(time - lo) * last;
    (1..=last).filter(begun).count() as u32
}

fn bounds(report: &mut Report) {
    let good = [(0, 0, 1), (10, 0, 1), (10, 7, 8), (10, 0, 16_777_215), (3, 16_777_214, 16_777_215), (0, 5, 9)];
    for (m, lo, hi) in good {
        report.expect(spread(m, lo, hi).in_bounds(), &format!("spread {} {} {} is a ruler", m, lo, hi));
    }
    let most = u32::MAX;
    let bad = [
        (11, 0, 1),
        (32, 0, 1),
        (most, 0, 1),
        (3, 0, 0),
        (3, 5, 5),
        (3, 6, 5),
        (3, 0, 16_777_216),
        (3, 16_777_216, 16_777_217),
        (3, 16_777_215, 16_777_216),
        (3, 0, most),
        (3, most, 0),
        (3, most, most),
        (most, most, most),
    ];
    for (m, lo, hi) in bad {
        report.expect(!spread(m, lo, hi).in_bounds(), &format!("spread {} {} {} is none", m, lo, hi));
        let mut index = dirty_index(3, 3, 3);
        let reply = build(spread(m, lo, hi), &[1], &mut index);
        report.expect(reply == refusal(1) && index == dirty_index(3, 3, 3), "1 comes before 2");
    }
}

/// m = 3 from 10 to 90: a cell has 80 / 7 seconds, so the cells begin at 10, 22, 33, 45, 56, 68, 79, and the last is 90 alone.
fn cells_of_an_example(report: &mut Report) {
    let ruler = spread(3, 10, 90);
    let first_times = [10, 22, 33, 45, 56, 68, 79, 90];
    for (cell, first) in (0..).zip(first_times) {
        report.expect(ruler.cell(3, first) == cell, &format!("{} is in cell {}", first, cell));
        report.expect(cell == 0 || ruler.cell(3, first - 1) == cell - 1, &format!("{} is the first of them", first));
    }
    // 5, 2, 1, 0. Computed anew, level 1 would have cell 0 for all but 90.
    let levels: Vec<u32> = (0..=3).map(|level| ruler.cell(level, 68)).collect();
    report.expect(levels == vec![0, 1, 2, 5], "the cells of 68, level by level");
    report.expect(ruler.cell(1, 55) == 0 && ruler.cell(1, 56) == 1, "the middle is where cell 4 of level 3 begins");
}

fn cells_by_counting(report: &mut Report) {
    for m in 0..=5 {
        for lo in [0, 1, 77] {
            for long in (1..=70).chain([100, 341]) {
                every_cell(report, m, lo, lo + long);
            }
        }
    }
    for (lo, hi) in [(0, 1), (5, 1_000), (0, 1_023), (9, 1_033), (3, 2_050)] {
        every_cell(report, 10, lo, hi);
    }
}

fn every_cell(report: &mut Report, m: u32, lo: u32, hi: u32) {
    let ruler = spread(m, lo, hi);
    let last = (1 << m) - 1;
    let mut before = 0;
    for time in lo..=hi {
        let cell = ruler.cell(m, time);
        let name = format!("spread {} {} {}, time {}", m, lo, hi, time);
        report.expect(cell == counted_cell(m, lo, hi, time), &format!("{}: the cell by counting", name));
        report.expect(before <= cell && cell <= last, &format!("{}: cells never fall", name));
        report.expect(m == 0 || (cell == last) == (time == hi), &format!("{}: the last cell is hi's alone", name));
        for level in 0..=m {
            let above = ruler.cell(level, time);
            let cells = 1 << (m - level);
            report.expect(above * cells <= cell && cell < (above + 1) * cells, &format!("{}: level {}", name, level));
        }
        before = cell;
    }
    report.expect(ruler.cell(m, lo) == 0, "lo is in cell 0");
}

/// Products past 32 bits: 16,777,215 * 1,023 needs 34.
fn long_products(report: &mut Report) {
    let widest = spread(10, 0, 16_777_215);
    let cells = [(0, 0), (16_400, 0), (16_401, 1), (4_194_304, 255), (8_388_608, 511), (16_777_214, 1_022), (16_777_215, 1_023)];
    for (time, cell) in cells {
        report.expect(widest.cell(10, time) == cell, &format!("the longest ruler: {} is in cell {}", time, cell));
        report.expect(counted_cell(10, 0, 16_777_215, time) == cell, "and so by counting");
    }
    // The timetable to 28:00: 14:00 is the middle, in cell 511.5.
    let timetable = spread(10, 0, 100_800);
    report.expect(timetable.cell(10, 50_400) == 511 && timetable.cell(10, 50_450) == 512, "the middle of the timetable");
}

/// lo and hi are times, and what lies outside gets 4, in words as they are and not less lo.
fn times(report: &mut Report) {
    let ruler = spread(2, 10, 20);
    let mut built = |rows: &[Trip], right| {
        let mut index = dirty_index(2, 12, 12);
        let reply = build(ruler, &words_of(rows), &mut index);
        report.expect(reply == right, &format!("{:?}: {:?}", rows, reply));
    };
    built(&[trip(1, 10, 20)], ACCEPTED);
    built(&[trip(1, 10, 10), trip(2, 20, 20)], ACCEPTED);
    built(&[trip(1, 9, 20)], refusal_with(4, 0));
    built(&[trip(1, 10, 21)], refusal_with(4, 0));
    built(&[trip(1, 10, 10), trip(2, 0, 5)], refusal_with(4, 1));
    built(&[trip(1, 12, 9)], refusal_with(4, 0));
    built(&[trip(1, 12, 11)], refusal_with(5, 0));
    let mut index = dirty_index(2, 8, 8);
    build(ruler, &trip(1, 10, 20).words(), &mut index);
    report.expect(asked(ruler, &index, 13, 10, 10) == Ok(vec![1]), "a window at lo");
    report.expect(asked(ruler, &index, 13, 20, 20) == Ok(vec![1]), "a window at hi");
    report.expect(asked(ruler, &index, 13, 9, 20) == Err(4), "a window from before lo");
    report.expect(asked(ruler, &index, 13, 10, 21) == Err(4), "a window past hi");
    report.expect(asked(ruler, &index, 13, 10, 9) == Err(4), "4 before 5");
    report.expect(add(ruler, trip(1, 9, 10), &mut index) == refusal(4), "an addition before lo: 4 before 6");
}

/// m = 1 from 5 to 8: cell 0 is 5, 6, 7 and cell 1 is 8.
fn words_by_hand(report: &mut Report) {
    let ruler = spread(1, 5, 8);
    let mut index = dirty_index(1, 12, 0);
    let reply = build(ruler, &[1, 5, 7, 1, 2, 5, 8, 2, 3, 8, 8, 3], &mut index);
    report.expect(reply == ACCEPTED, "three trips and no replica");
    report.expect(index.directory == vec![0, 1, 1, 2, 2, 3, 3, 0, 0, 0, 0, 0, 0, 0], "the directory");
    report.expect(index.originals == vec![2, 5, 8, 2, 1, 5, 7, 1, 3, 8, 8, 3], "the originals");
    // Two times and a thousand cells: a trip over both has all cells, and lies in the one partition of level 0.
    let found = places(spread(10, 41, 42), &trip(1, 41, 42));
    report.expect(found.len() == 1 && found[0].level == 0, "more cells than times");
}

/// From 0 to 60 with m = 4 a cell has four times, as on the ruler of 6 bits: the same words are an index under both, if no time
/// is past 60.
fn under_two_rulers(report: &mut Report) {
    let second = spread(M, 0, 60);
    let rows: Vec<Trip> = example_trips().into_iter().filter(|trip| trip.id != 9).collect();
    let index = built(RULER, &rows);
    report.expect(built(second, &rows) == index, "the words are the same");
    report.expect(check(second, &index) == ACCEPTED && check(RULER, &index) == ACCEPTED, "an index under both");
    for start in 0..=60 {
        for end in start..=60 {
            for code in 0..CODES {
                let ids = asked(RULER, &index, code, start, end);
                report.expect(asked(second, &index, code, start, end) == ids, "the same ids under both");
            }
        }
    }
    let mut answers = vec![0; 4];
    report.expect(ask(second, question(13, 0, 63), &index, &mut answers) == (refusal(4), 0), "63 is a time of one alone");
    let mut edited = index.clone();
    report.expect(add(second, trip(9, 0, 60), &mut edited) == ACCEPTED, "an edit under the second");
    report.expect(remove(RULER, 9, &mut edited) == ACCEPTED && edited == index, "and its removal under the first");
    // Trip 9 ends at 63; from 0 to 63 the second ruler has 20 in cell 4, the first in cell 5.
    report.expect(check(second, &built(RULER, &example_trips())) == refusal(8), "a time that the other has not");
    report.expect(check(spread(M, 0, 63), &index) == refusal(8), "a trip in another cell");
    report.expect(check(spread(M + 1, 0, 60), &index) == refusal(3), "the length of a directory depends on m");
    let empty = built(RULER, &[]);
    for ruler in [second, spread(M, 9, 10), bits(M, M), bits(24, M)] {
        report.expect(check(ruler, &empty) == ACCEPTED, "the empty index is one under every ruler of its m");
    }
}

fn built(ruler: Ruler, rows: &[Trip]) -> Index {
    let mut index = dirty_index(M, EXAMPLE_ORIGINALS, EXAMPLE_REPLICAS);
    build(ruler, &words_of(rows), &mut index);
    index
}

/// The word stands where a ruler begins, and three numbers follow it.
fn lines(report: &mut Report) {
    let mut answers = |line: &str, right: &str| {
        let given = probe_answer(line);
        report.expect(given == right, &format!("{}: {}", line, given));
    };
    answers("build spread 0 10 20 4 5 10 20 3 6 9 9 9 9 9 9 4 9 9 9 9 0", "0 0 6 0 1 1 0 0 0 4 5 10 20 3 0");
    answers("build spread 0 20 20 4 5 20 20 3 6 9 9 9 9 9 9 4 9 9 9 9 0", "1 0 6 9 9 9 9 9 9 4 9 9 9 9 0");
    answers("check spread 4294967295 4294967295 4294967295 0 0 0", "1 0");
    answers("check spread 0 0 1 6 0 0 0 0 0 0 0 0", "0 0");
    for line in [
        "check spread",
        "check spread 0 0",
        "check spread 0 0 1",
        "check spread 0 1 6 0 0 0 0 0 0 0 0",
        "check spread 1 0 0 0 1 6 0 0 0 0 0 0 0 0",
        "check Spread 0 0 1 6 0 0 0 0 0 0 0 0",
        "check SPREAD 0 0 1 6 0 0 0 0 0 0 0 0",
        "check spread0 0 1 6 0 0 0 0 0 0 0 0",
        "check sprea 0 0 1 6 0 0 0 0 0 0 0 0",
        "check spread spread 0 0 1 6 0 0 0 0 0 0 0 0",
        "check 0 spread 0 1 6 0 0 0 0 0 0 0 0",
        "check 0 0 1 6 0 0 0 0 0 0 0 0",
        "check  spread 0 0 1 6 0 0 0 0 0 0 0 0",
        "check spread  0 0 1 6 0 0 0 0 0 0 0 0",
        "spread check 0 0 1 6 0 0 0 0 0 0 0 0",
        "spread 0 0 1 6 0 0 0 0 0 0 0 0",
        "check spread 0 0 1 6 0 0 0 0 0 0 0 0 spread",
        "check spread 0 -1 1 6 0 0 0 0 0 0 0 0",
        "check spread 0 0 4294967296 6 0 0 0 0 0 0 0 0",
        "check spread 0 0 00000000001 6 0 0 0 0 0 0 0 0",
    ] {
        answers(line, "bad line");
    }
}
