//! Lengths and first contents of lent buffers.

use super::size::Size;
use crate::model::index::{directory_length, Index};
use crate::model::trip::ENTRY_WORDS;
use crate::random::Random;

/// A length near what is needed: exact most often, a word or an entry short, not a multiple of an entry,
/// longer. Short ones are drawn only where they are asked for.
pub fn length_near(random: &mut Random, size: Size, needed: usize, may_be_short: bool) -> usize {
    if may_be_short && random.once_in(6) {
        let less = random.pick(&[1, 2, 3, ENTRY_WORDS, ENTRY_WORDS + 1, needed]);
        return needed.saturating_sub(less);
    }
    match random.below(8) {
        0 | 1 | 2 => needed,
        3 => needed + 1,
        4 => needed + ENTRY_WORDS - 1,
        5 => needed + ENTRY_WORDS,
        _ => needed + random.below(size.spare + 1),
    }
}

/// Words as a caller may have left them.
pub fn dirty(random: &mut Random, length: usize) -> Vec<u32> {
    let manner = random.below(5);
    let mut words = Vec::new();
    for k in 0..length {
        words.push(match manner {
            0 => 0,
            1 => u32::MAX,
            2 => k as u32,
            3 => random.word(),
            _ => random.below(4) as u32,
        });
    }
    words
}

/// The three buffers of an index, with arenas of these lengths, as a caller may have left them.
pub fn dirty_index(random: &mut Random, m: u32, originals: usize, replicas: usize) -> Index {
    Index {
        directory: dirty(random, directory_length(m)),
        originals: dirty(random, originals),
        replicas: dirty(random, replicas),
    }
}
