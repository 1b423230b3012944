//! Document 02, T-02: "exactly one of codes 0 to 12 holds for any window and trip, points too"; and T-07: the total "counts the
//! trips that run that day".

use super::report::Report;
use crate::call::Call;
use crate::faults::{with_fault, Fault};
use crate::generate::rounds::rounds;
use crate::model::relation::{related, Span, AFTER, BEFORE, CODES, G_OVERLAPS};
use crate::sums::Sums;

const MEETS: u32 = 5;
const MET_BY: u32 = 6;
/// Every order of four times is met among so many.
const TIMES: u32 = 6;
const ROUNDS: usize = 400;

pub fn every_code(report: &mut Report) {
    for q in spans() {
        for s in spans() {
            exactly_one(report, q, s);
            changed_for_points_alone(report, q, s);
        }
    }
    let drawn: Vec<Call> = rounds(41).take(ROUNDS).flatten().collect();
    let sums = |fault: Option<Fault>| {
        let mut sums = Sums::default();
        for call in &drawn {
            sums.see(call, &with_fault(fault, || call.answer()));
        }
        sums
    };
    report.expect(sums(None).right == ROUNDS, "the counts of every window and day add up");
    for fault in [
        Fault::OldMeets,
        Fault::OldMetBy,
        Fault::CountOffByOne,
        Fault::ReplicasListed,
        Fault::CellsCompared,
        Fault::BitsFromOne,
        Fault::LastDayRefused,
        Fault::DayIgnoredBetween,
    ] {
        report.expect(sums(Some(fault)).wrong > 0, &format!("the sums notice {:?}", fault));
    }
}

fn spans() -> Vec<Span> {
    (0..TIMES).flat_map(|st| (st..TIMES).map(move |end| Span { st, end })).collect()
}

fn exactly_one(report: &mut Report, q: Span, s: Span) {
    let holding = (0..CODES).filter(|code| related(*code, q, s)).collect::<Vec<u32>>();
    let thirteen = holding.iter().filter(|code| **code < G_OVERLAPS).count();
    report.expect(thirteen == 1, &format!("{:?} to {:?}: {:?} of codes 0 to 12 hold", q, s, holding));
    let apart = related(BEFORE, q, s) || related(AFTER, q, s);
    report.expect(related(G_OVERLAPS, q, s) == !apart, "G-OVERLAPS holds where neither BEFORE nor AFTER does");
}

/// "They differ from the old ones only where one of the two is a point."
fn changed_for_points_alone(report: &mut Report, q: Span, s: Span) {
    let points = q.st == q.end || s.st == s.end;
    let old = (q.end == s.st, q.st == s.end);
    let new = (related(MEETS, q, s), related(MET_BY, q, s));
    report.expect(new == if points { (false, false) } else { old }, "MEETS and MET_BY changed for points alone");
}
