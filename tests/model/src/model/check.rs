//! Check, and the opening that all calls on an index share: 1, 3, 8.

use super::build::build_rows;
use super::index::{directory_length, partitions, refusal, Index, Reply, ACCEPTED};
use super::ruler::Ruler;
use super::trip::{trips_of, words_of, Trip, ENTRY_WORDS};
use crate::faults::{planted, Fault};

pub fn check(ruler: Ruler, index: &Index) -> Reply {
    match table_of(ruler, index) {
        Ok(_) => ACCEPTED,
        Err(refused) => refused,
    }
}

/// The trips of an index, in the order of the originals arena; or the refusal.
///
/// Refusal 8 is decided by building again. Each trip has exactly one original entry, so if the words are
/// the index of a table, the entries of the originals arena are that table in some order; and the order
/// of rows has no influence on the index. So they are an index exactly if this table gives them back.
pub fn table_of(ruler: Ruler, index: &Index) -> Result<Vec<Trip>, Reply> {
    if !ruler.in_bounds() {
        return Err(refusal(1));
    }
    let m = ruler.m();
    if index.directory.len() != directory_length(m) {
        return Err(refusal(3));
    }
    let total = index.directory[2 * partitions(m)];
    let total_words = u64::from(total) * ENTRY_WORDS as u64;
    if total_words > index.originals.len() as u64 {
        return Err(refusal(8));
    }
    let table = &index.originals[..total_words as usize];
    let mut again = zeros_like(index);
    if build_rows(ruler, table, &mut again, planted(Fault::ZeroDaysChecked)) != ACCEPTED {
        return Err(refusal(8));
    }
    if planted(Fault::SpareUnchecked) {
        take_spare_words(m, &mut again, index);
    }
    if planted(Fault::ReplicaDaysUnchecked) {
        take_replica_days(m, &mut again, index);
    }
    if again != *index {
        return Err(refusal(8));
    }
    Ok(trips_of(table))
}

fn zeros_like(index: &Index) -> Index {
    Index {
        directory: vec![0; index.directory.len()],
        originals: vec![0; index.originals.len()],
        replicas: vec![0; index.replicas.len()],
    }
}

/// Only for the planted fault: makes the words after the last entry equal.
fn take_spare_words(m: u32, again: &mut Index, index: &Index) {
    let (originals, replicas) = used_words(m, again);
    again.originals[originals..].copy_from_slice(&index.originals[originals..]);
    again.replicas[replicas..].copy_from_slice(&index.replicas[replicas..]);
}

/// Only for the planted fault: makes the day words of the replicas equal.
fn take_replica_days(m: u32, again: &mut Index, index: &Index) {
    let (_, replicas) = used_words(m, again);
    let mut entries = trips_of(&again.replicas[..replicas]);
    for (entry, given) in entries.iter_mut().zip(trips_of(&index.replicas[..replicas])) {
        entry.days = given.days;
    }
    again.replicas[..replicas].copy_from_slice(&words_of(&entries));
}

/// The words of each arena that entries take.
fn used_words(m: u32, index: &Index) -> (usize, usize) {
    let half = 2 * partitions(m) + 1;
    (ENTRY_WORDS * index.directory[half - 1] as usize, ENTRY_WORDS * index.directory[2 * half - 1] as usize)
}
