//! The session program: document 01's example and the readings of its lines.

use super::report::Report;
use crate::generate::sessions::{fixed_input, session_input, EXAMPLE, FIRST_ROUND};
use crate::random::Random;
use crate::session::session;

pub fn sessions(report: &mut Report) {
    let right: &[u8] = b"ok\nok\nok\nok\nok\n2 7 9\n3 4 7 9\n0\nok\n3 4 7 9\nrefused 5\n";
    report.expect(session(EXAMPLE) == right, "the example");
    report.expect(session(&EXAMPLE[..EXAMPLE.len() - 1]) == right, "the example without its last newline");

    let mut writes = |input: &[u8], output: &[u8]| {
        let given = session(input);
        let what = format!("{:?}: {:?}", String::from_utf8_lossy(input), String::from_utf8_lossy(&given));
        report.expect(given == output, &what);
    };
    writes(b"", b"");
    writes(b"\n", b"bad line\n");
    writes(b"D 6 4", b"ok\n");
    writes(b"D 6 4\n\nX 1\n", b"ok\nbad line\n");
    writes(b"T 1 2 3 4\nD 6 4\n", b"bad line\n");
    writes(b"X 1\n", b"bad line\n");
    writes(b"Q 13 0 1 0\n", b"bad line\n");
    writes(b"D 6 4\nD 6 4\nX 1\n", b"ok\nbad line\n");
    // m above 8 is malformed whatever w is; other bad rulers are refused and end it too.
    writes(b"D 6 9\n", b"bad line\n");
    writes(b"D 25 9\nD 6 4\n", b"bad line\n");
    writes(b"D 7 8\nD 6 4\n", b"refused 1\n");
    writes(b"D 25 8\nX 1\n", b"refused 1\n");
    writes(b"D 0 0\n", b"refused 1\n");
    writes(b"D 8 8\nX 1\n", b"ok\nrefused 10\n");
    // Ten digits at most, leading zeros among them, and no value past a u32.
    writes(b"D 0000000006 04\nX 4294967295\nX 4294967296\nX 1\n", b"ok\nrefused 10\nbad line\n");
    writes(b"D 6 4\nX 00000000001\n", b"ok\nbad line\n");
    writes(b"D 6 4\nT 1 0 4294967295 1\n", b"ok\nrefused 4\n");
    writes(b"D 6 4\nT 1 0 +1 1\n", b"ok\nbad line\n");
    writes(b"D 6 4\r\nX 1\r\n", b"bad line\n");
    writes(b"D 6 4\nX 1 \n", b"ok\nbad line\n");
    writes(b"D 6 4\nx 1\n", b"ok\nbad line\n");
    // A refused line does not end it; no match writes 0.
    writes(
        b"D 6 4\nQ 14 0 1 0\nQ 13 0 1 0\nQ 13 64 1 0\nQ 13 2 1 0\nX 1",
        b"ok\nrefused 9\n0\nrefused 4\nrefused 5\nrefused 10\n",
    );
    writes(b"D 6 4\nT 0 1 1 1\nT 0 2 2 1\nT 4294967295 1 1 1\nQ 13 1 1 0", b"ok\nok\nrefused 6\nok\n2 0 4294967295\n");

    // One number more, last: lines of the old form are malformed.
    writes(b"D 6 4\nT 1 2 3\nX 1\n", b"ok\nbad line\n");
    writes(b"D 6 4\nQ 13 0 1\nX 1\n", b"ok\nbad line\n");
    writes(b"D 6 4\nT 1 2 3 4 5\n", b"ok\nbad line\n");
    writes(b"D 6 4\nQ 13 0 1 0 0\n", b"ok\nbad line\n");
    // A trip at the weekend, day 5 and 6; the same times on the other days of the week.
    writes(
        b"D 6 4\nT 1 2 3 96\nT 2 2 3 31\nQ 13 2 3 4\nQ 13 2 3 5\nQ 13 2 3 6\nQ 13 2 3 7",
        b"ok\nok\nok\n1 2\n1 1\n1 1\n0\n",
    );
    writes(
        b"D 6 4\nT 1 2 3 0\nT 1 2 3 2147483648\nT 1 2 3 0\nQ 13 2 3 31\nQ 13 2 3 32\nQ 13 2 3 4294967295\nQ 13 3 2 32\nQ 14 2 3 32",
        b"ok\nrefused 16\nok\nrefused 6\n1 1\nrefused 17\nrefused 17\nrefused 5\nrefused 9\n",
    );
    writes(b"D 6 4\nQ 13 2 3 4294967296\n", b"ok\nbad line\n");

    full(report);
    ended(report);
}

/// 256 trips fill the arenas; the 257th that passes the earlier tests gets 7.
fn full(report: &mut Report) {
    let mut input = b"D 24 8\n".to_vec();
    let mut right = b"ok\n".to_vec();
    for id in 0..256 {
        // Cells 1 to 254: fourteen partitions, thirteen of them with replicas.
        input.extend(format!("T {} 65536 16711679 1\n", id).as_bytes());
        right.extend(b"ok\n");
    }
    input.extend(b"T 256 1 1 1\nT 256 1 1 0\nT 0 1 1 0\nT 256 2 1 0\nT 256 16777216 1 0\n");
    input.extend(b"X 0\nT 256 1 1 1\nT 257 1 1 1\nQ 4 0 1 0\nQ 5 0 1 0\n");
    right.extend(b"refused 7\nrefused 16\nrefused 6\nrefused 5\nrefused 4\nok\nok\nrefused 7\n1 256\n0\n");
    report.expect(session(&input) == right, "a full session");
}

/// After a malformed line nothing is written; and every kind of fixed session is in the first round.
fn ended(report: &mut Report) {
    let mut random = Random::new(1);
    let mut kinds = 0;
    while let Some(input) = fixed_input(&mut random, kinds) {
        let output = session(&input);
        let text = String::from_utf8_lossy(&output).into_owned();
        let lines: Vec<&str> = text.lines().collect();
        let bad = lines.iter().filter(|line| **line == "bad line").count();
        let at_the_end = bad == 0 || lines.last() == Some(&"bad line");
        report.expect(bad <= 1 && at_the_end, &format!("fixed session {} goes on after its end", kinds));
        kinds += 1;
    }
    report.expect(kinds < FIRST_ROUND, "the first round has room for every kind");
    report.expect(session_input(9, 0) == EXAMPLE, "the first session is document 01's");
}
