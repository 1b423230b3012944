//! Refusal 8 by its own sentence, on rulers so small that all tables can be tried: words are an index
//! exactly if some table that build accepts gives them.

use super::examples::{bits, spread};
use super::report::Report;
use crate::model::build::build;
use crate::model::check::check;
use crate::model::index::{directory_length, refusal, Index, ACCEPTED};
use crate::model::ruler::Ruler;
use crate::model::trip::{words_of, Trip, ENTRY_WORDS};
use crate::random::Random;

/// The ids that tables are made of. Changed words may hold others; then no table gives them, except where
/// such a word is an id of the changed index, so changes keep to these words for ids.
const IDS: [u32; 3] = [0, 1, 7];

/// The day words that tables are made of. Rows with the first are refused.
const DAY_WORDS: [u32; 3] = [0, 1, 6];

/// The last time of the widest of these rulers. Tables with a time that a ruler does not have are refused.
const LAST_TIME: u32 = 4;

pub fn search(report: &mut Report) {
    let rulers = [
        (bits(1, 0), 8, 0),
        (bits(1, 1), 8, 3),
        (bits(2, 1), 9, 4),
        (bits(2, 2), 8, 9),
        (spread(0, 0, 1), 8, 0),
        (spread(1, 1, 3), 9, 4),
        (spread(2, 0, 3), 8, 9),
        (spread(2, 2, 4), 8, 9),
    ];
    for (ruler, originals, replicas) in rulers {
        let all = all_indices(ruler, originals, replicas);
        let mut random = Random::new(3);
        for index in &all {
            report.expect(check(ruler, index) == ACCEPTED, "a built index passes");
            for _ in 0..60 {
                let changed = changed(&mut random, index);
                let right = if all.contains(&changed) { ACCEPTED } else { refusal(8) };
                let what = format!("{:?}: {:?} is an index or not", ruler, changed);
                report.expect(check(ruler, &changed) == right, &what);
            }
        }
    }
}

/// The index of every table of at most two rows with these ids, in arenas of these lengths. The lengths
/// have no room for a third.
fn all_indices(ruler: Ruler, originals: usize, replicas: usize) -> Vec<Index> {
    let mut rows = Vec::new();
    for id in IDS {
        for start in 0..=LAST_TIME {
            for end in 0..=LAST_TIME {
                rows.extend(DAY_WORDS.map(|days| Trip { id, start, end, days }));
            }
        }
    }
    let mut tables = vec![Vec::new()];
    for one in &rows {
        tables.push(words_of(&[*one]));
        for other in &rows {
            tables.push(words_of(&[*one, *other]));
        }
    }
    let mut found: Vec<Index> = Vec::new();
    for table in tables {
        let mut index = Index {
            directory: vec![0; directory_length(ruler.m())],
            originals: vec![0; originals],
            replicas: vec![0; replicas],
        };
        if build(ruler, &table, &mut index) == ACCEPTED && !found.contains(&index) {
            found.push(index);
        }
    }
    found
}

/// One to four words changed to small ones: this often gives another index. The word 7 is an id and no
/// time of these rulers.
fn changed(random: &mut Random, index: &Index) -> Index {
    let mut other = index.clone();
    let lengths = [other.directory.len(), other.originals.len(), other.replicas.len()];
    for _ in 0..random.between(1, 4) {
        let k = random.below(lengths[0] + lengths[1] + lengths[2]);
        if k < lengths[0] {
            other.directory[k] = random.between(0, 2);
        } else if k < lengths[0] + lengths[1] {
            other.originals[k - lengths[0]] = small_word(random, k - lengths[0]);
        } else {
            let at = k - lengths[0] - lengths[1];
            other.replicas[at] = small_word(random, at);
        }
    }
    other
}

/// A word for this place of an arena, as if entries stood there.
fn small_word(random: &mut Random, at: usize) -> u32 {
    let entry = Trip {
        id: random.pick(&IDS),
        start: random.between(0, LAST_TIME),
        end: random.between(0, LAST_TIME),
        days: random.pick(&DAY_WORDS),
    };
    entry.words()[at % ENTRY_WORDS]
}
