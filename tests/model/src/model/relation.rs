//! The relationships of question q against trip s, one line a code, as in document 01's table; MEETS and MET_BY as
//! document 02 has them (T-02): both need a window and a trip that are more than a point.

use crate::faults::{planted, Fault};

/// A window or the times of a trip, closed at both ends.
#[derive(Clone, Copy, Debug)]
pub struct Span {
    pub st: u32,
    pub end: u32,
}

pub const CODES: u32 = 14;
pub const BEFORE: u32 = 11;
pub const AFTER: u32 = 12;
pub const G_OVERLAPS: u32 = 13;

/// Whether the relationship holds; `code` is 0 to 13.
pub fn related(code: u32, q: Span, s: Span) -> bool {
    match code {
        0 => q.st == s.st && q.end == s.end,
        1 => q.st == s.st && q.end < s.end,
        2 => q.st == s.st && q.end > s.end,
        3 => q.st > s.st && q.end == s.end,
        4 => q.st < s.st && q.end == s.end,
        5 if planted(Fault::OldMeets) => q.end == s.st,
        5 => q.st < q.end && q.end == s.st && s.st < s.end,
        6 if planted(Fault::OldMetBy) => q.st == s.end,
        6 => s.st < s.end && s.end == q.st && q.st < q.end,
        7 => q.st < s.st && s.st < q.end && q.end < s.end,
        8 => s.st < q.st && q.st < s.end && s.end < q.end,
        9 => q.st < s.st && s.end < q.end,
        10 => s.st < q.st && q.end < s.end,
        BEFORE => q.end < s.st,
        AFTER => s.end < q.st,
        G_OVERLAPS => q.st <= s.end && s.st <= q.end,
        _ => unreachable!("codes above 13 are refused before"),
    }
}
