//! Where a trip is stored: every partition of every level is tried against the definition.

use super::ruler::Ruler;
use super::trip::Trip;
use crate::faults::{planted, Fault};

/// One entry of a trip. Original, else replica; inside ("in"), else "aft".
#[derive(Clone, Copy, Debug, PartialEq)]
pub struct Place {
    pub level: u32,
    pub partition: u32,
    pub original: bool,
    pub inside: bool,
}

impl Place {
    /// O_in, O_aft, R_in, R_aft are subdivisions 0 to 3.
    pub fn subdivision(&self) -> usize {
        match (self.original, self.inside) {
            (true, true) => 0,
            (true, false) => 1,
            (false, true) => 2,
            (false, false) => 3,
        }
    }
}

/// Whether all cells of the partition lie in a..b. "Partition i covers level-m cells i * 2^(m-L) to
/// (i+1) * 2^(m-L) - 1."
fn all_cells_within(m: u32, level: u32, partition: u32, a: u32, b: u32) -> bool {
    let cells = 1u32 << (m - level);
    let first = partition * cells;
    let last = (partition + 1) * cells - 1;
    a <= first && last <= b
}

/// "A partition holds the trip exactly if all its cells lie in a..b and it is at level 0 or its parent's
/// cells don't all lie in a..b."
fn holds(m: u32, level: u32, partition: u32, a: u32, b: u32) -> bool {
    all_cells_within(m, level, partition, a, b)
        && (level == 0 || !all_cells_within(m, level - 1, partition / 2, a, b))
}

/// All places of a trip, level 0 first.
pub fn places(ruler: Ruler, trip: &Trip) -> Vec<Place> {
    let m = ruler.m();
    let a = ruler.cell(m, trip.start);
    let b = ruler.cell(m, trip.end);
    let mut found = Vec::new();
    for level in 0..=m {
        for partition in 0..1u32 << level {
            if holds(m, level, partition, a, b) {
                found.push(Place {
                    level,
                    partition,
                    original: ruler.cell(level, trip.start) == partition,
                    inside: ruler.cell(level, trip.end) == partition,
                });
            }
        }
    }
    if planted(Fault::ReplicaDropped) && found.len() >= 3 {
        found.pop();
    }
    found
}
