//! The run of one subdivision (1, 3, 8, 12) and the census (1, 3, 8).

use super::check::table_of;
use super::index::{partition_number, partitions, refusal, Index, Reply, ACCEPTED};
use super::places::places;
use super::ruler::{Ruler, DEEPEST};
use super::trip::ENTRY_WORDS;

pub type Census = [[u32; 4]; DEEPEST as usize + 1];

/// The reply and the words shown; a refused run shows none.
pub fn run(ruler: Ruler, level: u32, partition: u32, subdivision: u32, index: &Index) -> (Reply, Vec<u32>) {
    if let Err(refused) = table_of(ruler, index) {
        return (refused, Vec::new());
    }
    let m = ruler.m();
    // The level comes first: 2^level has no meaning here before it is known to be at most m.
    if level > m || partition >= 1 << level || subdivision > 3 {
        return (refusal(12), Vec::new());
    }
    let aft = subdivision as usize % 2;
    let slot = 2 * partition_number(level, partition) + aft;
    let half = 2 * partitions(m) + 1;
    let (word, arena) = if subdivision < 2 { (slot, &index.originals) } else { (half + slot, &index.replicas) };
    let first = ENTRY_WORDS * index.directory[word] as usize;
    let end = ENTRY_WORDS * index.directory[word + 1] as usize;
    (ACCEPTED, arena[first..end].to_vec())
}

/// Entries by level and subdivision, counted trip by trip; a refused census is all zeros.
pub fn census(ruler: Ruler, index: &Index) -> (Reply, Census) {
    let mut counts: Census = [[0; 4]; DEEPEST as usize + 1];
    let trips = match table_of(ruler, index) {
        Ok(trips) => trips,
        Err(refused) => return (refused, counts),
    };
    for trip in &trips {
        for place in places(ruler, trip) {
            counts[place.level as usize][place.subdivision()] += 1;
        }
    }
    (ACCEPTED, counts)
}
