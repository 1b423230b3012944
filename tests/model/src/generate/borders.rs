//! The first and the last time of a ruler, and where its cells begin. The rulers are within their bounds.

use crate::model::ruler::Ruler;
use crate::random::Random;

pub fn first_time(ruler: Ruler) -> u32 {
    match ruler {
        Ruler::Bits { .. } => 0,
        Ruler::Spread { lo, .. } => lo,
    }
}

pub fn last_time(ruler: Ruler) -> u32 {
    match ruler {
        Ruler::Bits { w, .. } => (1 << w) - 1,
        Ruler::Spread { hi, .. } => hi,
    }
}

/// The first time of a level-m cell, or of the next that has one: on the second ruler a cell may have none.
pub fn cell_start(ruler: Ruler, cell: u32) -> u32 {
    match ruler {
        Ruler::Bits { w, m } => cell << (w - m),
        Ruler::Spread { m: 0, lo, .. } => lo,
        Ruler::Spread { m, lo, hi } => {
            let since = u64::from(cell) * u64::from(hi - lo);
            lo + since.div_ceil((1 << m) - 1) as u32
        }
    }
}

/// The last time of a level-m cell; where it has none, the time that `cell_start` gives.
pub fn cell_end(ruler: Ruler, cell: u32) -> u32 {
    if cell + 1 == 1 << ruler.m() {
        return last_time(ruler);
    }
    cell_start(ruler, cell).max(cell_start(ruler, cell + 1) - 1)
}

/// The first time of some partition of some level.
pub fn border(random: &mut Random, ruler: Ruler) -> u32 {
    let m = ruler.m();
    let level = random.between(0, m);
    let partition = random.between(0, (1 << level) - 1);
    cell_start(ruler, partition << (m - level))
}

/// How many times a cell has: on the first ruler exactly, on the second about so many.
pub fn cell_length(ruler: Ruler) -> u32 {
    (last_time(ruler) - first_time(ruler)) / (1 << ruler.m()) + 1
}
