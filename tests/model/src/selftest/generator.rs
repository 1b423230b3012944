//! The drawn calls themselves: they fit every probe, their lines read back, and they bring about every
//! answer that there is, under rulers of both kinds and of every sort.

use super::report::Report;
use crate::call::{probe_answer, Call, Request};
use crate::days_met::DaysMet;
use crate::generate::crossings::{crossings, PAIRS};
use crate::generate::{bad_probe_line, fits, Calls, Size, ENTRIES_OF_THE_LONGEST, FULL, SMALL};
use crate::model::check::check;
use crate::model::places::places;
use crate::model::ruler::{Kind, Ruler, DEEPEST, KINDS};
use crate::model::trip::trips_of;
use crate::random::Random;
use crate::tally::tally_of;

pub fn generator(report: &mut Report) {
    let mut random = Random::new(2);
    for size in [FULL, SMALL] {
        for call in Calls::new(21, size).take(1_500) {
            let line = call.line();
            report.expect(fits(&call), "a call fits every probe");
            report.expect(Call::read(&line) == Some(call.clone()), "a line reads back");
            let bad = bad_probe_line(&mut random, &call);
            report.expect(probe_answer(&bad) == "bad line", &format!("is malformed: {}", bad));
            report.expect(call.ruler.m() <= 10 || call.answer().starts_with("1 0"), "m above 10 is refused");
        }
        for kind in KINDS {
            let longest = Calls::new(21, size).take(1_500).any(|call| is_of_longest(&call, kind));
            report.expect(longest == size.big, "large calls have a table of the longest trips under either kind");
        }
        let twice: Vec<Call> = Calls::new(22, size).take(300).collect();
        report.expect(Calls::new(22, size).take(300).eq(twice), "a seed gives the same calls again");
        let missing = tally_of(Calls::new(23, size), 10_000).missing(size);
        report.expect(missing.is_empty(), &missing.join(", "));
        every_case_of_days(report, size);
        every_sort_of_ruler(report, size);
    }
    words_of_another_ruler(report);
}

/// Many of the longest trips; a probe has room for some more.
const MANY: usize = 800;

/// A build on the deepest ruler of so many trips and more, of 18 entries each.
fn is_of_longest(call: &Call, kind: Kind) -> bool {
    match &call.request {
        Request::Build { table } if call.ruler.m() == DEEPEST && call.answer().starts_with("0 0") => {
            let trips = trips_of(table);
            let all = trips.iter().all(|trip| places(call.ruler, trip).len() == ENTRIES_OF_THE_LONGEST);
            call.ruler.kind() == kind && trips.len() > MANY && all
        }
        _ => false,
    }
}

/// A short run has them all.
fn every_case_of_days(report: &mut Report, size: Size) {
    let mut days = DaysMet::default();
    for call in Calls::new(26, size).take(3_000) {
        days.see(&call, &call.answer());
    }
    report.expect(days.missing().is_empty(), &days.missing().join(", "));
}

type Sort = (&'static str, fn(u32, u32, u32) -> bool);

/// The sorts of the second ruler, by m, lo and hi: good ones, then bad ones.
const SORTS: [Sort; 16] = [
    ("lo = 0", |_, lo, hi| lo == 0 && hi > 0),
    ("lo > 0", |_, lo, hi| 0 < lo && lo < hi),
    ("hi - lo = 1", |m, lo, hi| m > 0 && lo < hi && hi - lo == 1),
    ("fewer times than cells", |m, lo, hi| m <= 10 && lo < hi && hi - lo > 1 && hi - lo < (1 << m) - 1),
    ("a cell for each time", |m, lo, hi| 1 < m && m <= 10 && lo < hi && hi - lo == (1 << m) - 1),
    ("the latest hi", |_, lo, hi| lo < hi && hi == (1 << 24) - 1),
    ("the longest", |_, lo, hi| lo == 0 && hi == (1 << 24) - 1),
    ("a timetable", |_, lo, hi| lo < hi && hi == 100_800),
    ("lo = hi", |m, lo, hi| m <= 10 && lo == hi),
    ("lo > hi", |m, lo, hi| m <= 10 && lo > hi),
    ("hi = 2^24", |m, lo, hi| m <= 10 && lo < hi && hi == 1 << 24),
    ("the largest hi", |m, lo, hi| m <= 10 && lo < hi && hi == u32::MAX),
    ("lo past 2^24", |m, lo, hi| m <= 10 && 1 << 24 <= lo && lo < hi),
    ("m = 11", |m, lo, hi| m == 11 && lo < hi && hi < 1 << 24),
    ("32 added to m", |m, lo, hi| 32 <= m && m <= 42 && lo < hi && hi < 1 << 24),
    ("the largest m", |m, lo, hi| m == u32::MAX && lo < hi && hi < 1 << 24),
];

fn every_sort_of_ruler(report: &mut Report, size: Size) {
    let calls: Vec<Call> = Calls::new(24, size).take(6_000).collect();
    for (name, holds) in SORTS {
        let met = calls.iter().any(|call| match call.ruler {
            Ruler::Spread { m, lo, hi } => holds(m, lo, hi),
            Ruler::Bits { .. } => false,
        });
        report.expect(met, &format!("a second ruler is drawn with {}", name));
    }
    let second = calls.iter().filter(|call| call.ruler.kind() == Kind::Spread).count();
    report.expect(calls.len() / 3 < second && second < calls.len() * 2 / 3, "either kind has a third of the calls at least");
}

/// For each pair of kinds: words with trips, on a ruler of more than one level, that pass under the other ruler, and words that get 8.
fn words_of_another_ruler(report: &mut Report) {
    for (number, pair) in PAIRS.iter().enumerate() {
        let calls: Vec<Call> = crossings(25).skip(number).step_by(PAIRS.len()).take(200).collect();
        report.expect(calls.iter().all(|call| call.ruler.kind() == pair.1), "a call names the second of its pair");
        let with_trips = |call: &&Call| call.ruler.m() > 0 && call.index.originals.iter().any(|word| *word > 0);
        let many = |number: u32| {
            calls.iter().filter(with_trips).filter(|call| check(call.ruler, &call.index).number == number).count()
        };
        report.expect(many(0) > 10, &format!("{:?}: {} indices with trips pass under the other ruler", pair, many(0)));
        report.expect(many(8) > 10, &format!("{:?}: {} indices with trips get 8", pair, many(8)));
    }
}
