//! The two rulers: their bounds, their times, and the cell of a time.

use crate::faults::{planted, Fault};

pub const WIDEST: u32 = 24;
pub const DEEPEST: u32 = 10;
pub const MOST_TRIPS: usize = 4096;

/// A ruler as a call names it. The numbers may be any words: whether they are a ruler is what `in_bounds` says, and only
/// then have the others a meaning.
#[derive(Clone, Copy, Debug, PartialEq)]
pub enum Ruler {
    Bits { w: u32, m: u32 },
    Spread { m: u32, lo: u32, hi: u32 },
}

#[derive(Clone, Copy, Debug, PartialEq, Eq, PartialOrd, Ord)]
pub enum Kind {
    Bits,
    Spread,
}

pub const KINDS: [Kind; 2] = [Kind::Bits, Kind::Spread];

impl Kind {
    pub fn name(self) -> &'static str {
        match self {
            Kind::Bits => "bits",
            Kind::Spread => "spread",
        }
    }
}

impl Ruler {
    pub fn kind(self) -> Kind {
        match self {
            Ruler::Bits { .. } => Kind::Bits,
            Ruler::Spread { .. } => Kind::Spread,
        }
    }

    /// The deepest level. "Lengths of directories depend on m alone."
    pub fn m(self) -> u32 {
        match self {
            Ruler::Bits { m, .. } => m,
            Ruler::Spread { m, .. } => m,
        }
    }

    pub fn in_bounds(self) -> bool {
        match self {
            // "A ruler has w, 1 to 24, and m, 0 to 10 and at most w."
            Ruler::Bits { w, m } => 1 <= w && w <= WIDEST && m <= DEEPEST && m <= w,
            Ruler::Spread { m, lo, hi } => m <= DEEPEST && spans(m, lo, hi),
        }
    }

    pub fn on_ruler(self, time: u32) -> bool {
        match self {
            Ruler::Bits { w, .. } => has_bits(w, time),
            Ruler::Spread { lo, hi, .. } => lies_between(lo, hi, time),
        }
    }

    /// The cell of a time at a level, 0 to m. A time that is off the ruler is refused before; here it gets some number.
    pub fn cell(self, level: u32, time: u32) -> u32 {
        let time = if planted(Fault::ModuloDay) { time % 86_400 } else { time };
        match self {
            // "The cell of time t at level L is the whole part of t / 2^(w - L)."
            Ruler::Bits { w, .. } => time / (1u32 << (w - level)),
            Ruler::Spread { m, lo, hi } => spread_cell(m, lo, hi, level, time),
        }
    }
}

/// "Raw times run from 0 to 2^w - 1."
fn has_bits(w: u32, time: u32) -> bool {
    let times = 1u32 << w;
    if planted(Fault::RulerEnd) {
        return time <= times;
    }
    time < times
}

/// "Beside the present ruler add one with lo and hi, lo < hi < 2^24": any m goes with them.
fn spans(m: u32, lo: u32, hi: u32) -> bool {
    if planted(Fault::HiTooWide) {
        return lo < hi && hi <= 1 << WIDEST;
    }
    if planted(Fault::TooNarrow) {
        return lo < hi && hi < 1 << WIDEST && hi - lo >= (1 << m) - 1;
    }
    lo < hi && hi < 1 << WIDEST
}

/// "Times outside lo..hi get 4": lo and hi themselves are times.
fn lies_between(lo: u32, hi: u32, time: u32) -> bool {
    if planted(Fault::LessLo) {
        return time <= hi - lo;
    }
    if planted(Fault::LoUntested) {
        return time <= hi;
    }
    if planted(Fault::LoOff) {
        return lo < time && time <= hi;
    }
    if planted(Fault::HiOff) {
        return lo <= time && time < hi;
    }
    lo <= time && time <= hi
}

/// "Each step from level m towards 0 halves it."
fn spread_cell(m: u32, lo: u32, hi: u32, level: u32, time: u32) -> u32 {
    if planted(Fault::CellAnew) {
        return deepest_cell(level, lo, hi, time);
    }
    let mut cell = deepest_cell(m, lo, hi, time);
    for _ in level..m {
        cell /= 2;
    }
    cell
}

/// "The level-m cell of t is the whole part of (t - lo) * (2^m - 1) / (hi - lo)." The product needs 34 bits.
fn deepest_cell(m: u32, lo: u32, hi: u32, time: u32) -> u32 {
    let since = if planted(Fault::LessLo) { time } else { time.saturating_sub(lo) };
    let last = if planted(Fault::LastTooLarge) { 1 << m } else { (1 << m) - 1 };
    let all = u64::from(hi - lo);
    let mut product = u64::from(since) * last;
    if planted(Fault::CutProduct) {
        product %= 1 << 32;
    }
    if planted(Fault::RoundedUp) {
        product += all - 1;
    }
    (product / all).min(u64::from(u32::MAX)) as u32
}
