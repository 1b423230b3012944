//! Damage to the words of a lawful index. Some kinds leave an index after all: the model decides.

use super::borders::first_time;
use super::damage_slots::damage_slots;
use super::days::day_word;
use super::made::Made;
use super::rulers::ruler_with;
use crate::model::index::{partitions, Index};
use crate::model::trip::{words_of, Trip, ENTRY_WORDS};
use crate::random::Random;

/// One kind of damage, at times two.
pub fn damage(random: &mut Random, made: &mut Made) {
    damage_once(random, made);
    if random.once_in(8) {
        damage_words(random, made);
    }
}

fn damage_once(random: &mut Random, made: &mut Made) {
    if random.once_in(2) {
        damage_slots(random, made);
    } else {
        damage_words(random, made);
    }
}

fn damage_words(random: &mut Random, made: &mut Made) {
    let m = made.ruler.m();
    let first = first_time(made.ruler);
    let index = &mut made.index;
    match random.below(15) {
        0 | 1 => change_directory_word(random, index),
        2 | 3 => change_arena_word(random, index),
        4 => move_directory_word(random, index),
        5 => swap_entries(random, index),
        6 => soil_spare_word(random, m, index),
        7 => lengthen(random, index),
        8 => shorten(random, index),
        9 => raise_total(random, m, first, index),
        10 => huge_directory_word(random, m, index),
        11 => swap_halves(random, index),
        12 => fill(random, index),
        13 => entry_in_no_slot(random, m, first, index),
        // Lawful words, on another ruler.
        _ => made.ruler = ruler_with(random, m),
    }
}

/// A neighbour, zero, the largest word, one bit, or any word.
pub fn other_word(random: &mut Random, word: u32) -> u32 {
    match random.below(7) {
        0 | 1 => word.wrapping_add(1),
        2 | 3 => word.wrapping_sub(1),
        4 => 0,
        5 => u32::MAX,
        _ => word ^ 1 << random.below(32),
    }
}

fn change_directory_word(random: &mut Random, index: &mut Index) {
    let k = random.below(index.directory.len());
    index.directory[k] = other_word(random, index.directory[k]);
}

fn any_arena<'a>(random: &mut Random, index: &'a mut Index) -> &'a mut Vec<u32> {
    if random.once_in(2) {
        &mut index.originals
    } else {
        &mut index.replicas
    }
}

fn change_arena_word(random: &mut Random, index: &mut Index) {
    let arena = any_arena(random, index);
    if !arena.is_empty() {
        let k = random.below(arena.len());
        arena[k] = other_word(random, arena[k]);
    }
}

/// One word up or down by one, or a stretch of them: an entry changes its slot and the totals may stay.
fn move_directory_word(random: &mut Random, index: &mut Index) {
    let length = index.directory.len();
    let first = random.below(length);
    let many = 1 + random.below(3);
    let up = random.once_in(2);
    for word in index.directory.iter_mut().skip(first).take(many) {
        *word = if up { word.wrapping_add(1) } else { word.wrapping_sub(1) };
    }
}

fn swap_entries(random: &mut Random, index: &mut Index) {
    let arena = any_arena(random, index);
    let entries = arena.len() / ENTRY_WORDS;
    if entries < 2 {
        return;
    }
    let one = random.below(entries);
    let other = if random.once_in(2) { (one + 1) % entries } else { random.below(entries) };
    for k in 0..ENTRY_WORDS {
        arena.swap(ENTRY_WORDS * one + k, ENTRY_WORDS * other + k);
    }
}

/// A word after the last entry that is not 0: the first, the last, or any. Where there is none, a new one.
fn soil_spare_word(random: &mut Random, m: u32, index: &mut Index) {
    let half = 2 * partitions(m) + 1;
    let originals = random.once_in(2);
    let total = if originals { index.directory[half - 1] } else { index.directory[2 * half - 1] };
    let arena = if originals { &mut index.originals } else { &mut index.replicas };
    let used = ENTRY_WORDS * total as usize;
    if used >= arena.len() {
        arena.push(random.pick(&[1, u32::MAX]));
        return;
    }
    let last = arena.len() - 1;
    let any = used + random.below(arena.len() - used);
    let k = random.pick(&[used, last, any]);
    arena[k] = random.pick(&[1, 2, 1 << 31, u32::MAX]);
}

/// Longer arenas with zeros are the index of the same table; with other words they are none.
fn lengthen(random: &mut Random, index: &mut Index) {
    let word = random.pick(&[0, 0, 0, 1]);
    let more = random.between(1, 7);
    let arena = any_arena(random, index);
    for _ in 0..more {
        arena.push(word);
    }
}

/// Shorter arenas stay an index while no entry is cut.
fn shorten(random: &mut Random, index: &mut Index) {
    let less = random.between(1, 7) as usize;
    let all = random.once_in(8);
    let arena = any_arena(random, index);
    let length = if all { 0 } else { arena.len().saturating_sub(less) };
    arena.truncate(length);
}

/// The directory claims one entry more from some slot on. The zeros behind the entries then read as trip 0 [0, 0], which runs on
/// no day. A trip 0 at the first time can be right in an empty index, if it has a day.
fn raise_total(random: &mut Random, m: u32, first_time: u32, index: &mut Index) {
    let half = 2 * partitions(m) + 1;
    let (first, end) = if random.once_in(3) { (half, 2 * half) } else { (0, half) };
    let leftmost_leaf = first + 2 * ((1 << m) - 1);
    let any = first + random.below(half);
    let from = random.pick(&[leftmost_leaf + 1, any, end - 1]);
    for word in &mut index.directory[from..end] {
        *word = word.wrapping_add(1);
    }
    if random.once_in(2) {
        let arena = if first == 0 { &mut index.originals } else { &mut index.replicas };
        arena.extend(point_at(random, 0, first_time));
    }
}

/// The first entry of an arena stands before the first slot: either one that was there, or a new one.
fn entry_in_no_slot(random: &mut Random, m: u32, first_time: u32, index: &mut Index) {
    let half = 2 * partitions(m) + 1;
    let originals = random.once_in(2);
    let words = if originals { &mut index.directory[..half] } else { &mut index.directory[half..] };
    let arena = if originals { &mut index.originals } else { &mut index.replicas };
    if random.once_in(2) {
        for word in words.iter_mut().filter(|word| **word == 0) {
            *word = 1;
        }
    } else {
        for word in words.iter_mut() {
            *word = word.wrapping_add(1);
        }
        arena.splice(0..0, point_at(random, 5, first_time));
    }
}

fn point_at(random: &mut Random, id: u32, time: u32) -> Vec<u32> {
    words_of(&[Trip { id, start: time, end: time, days: day_word(random) }])
}

/// Words whose fourfold passes 2^32, and comes to rest at a small number after it or at a large one.
fn huge_directory_word(random: &mut Random, m: u32, index: &mut Index) {
    let half = 2 * partitions(m) + 1;
    let any = random.below(2 * half);
    let k = random.pick(&[half - 1, 2 * half - 1, any]);
    let huge = [0x3fff_ffff, 0x4000_0000, 0x4000_0001, 0x8000_0000, 0x8000_0001, 0xc000_0001, u32::MAX, 4097];
    index.directory[k] = random.pick(&huge);
}

fn swap_halves(random: &mut Random, index: &mut Index) {
    if random.once_in(2) {
        let half = index.directory.len() / 2;
        index.directory.rotate_left(half);
    }
    if random.once_in(2) {
        let originals = index.originals.clone();
        index.originals = index.replicas.clone();
        index.replicas = originals;
    }
}

/// All words alike, or small words at random. All zeros are the empty index.
fn fill(random: &mut Random, index: &mut Index) {
    let manner = random.below(4);
    for words in [&mut index.directory, &mut index.originals, &mut index.replicas] {
        for word in words.iter_mut() {
            *word = match manner {
                0 => 0,
                1 => 1,
                2 => u32::MAX,
                _ => random.below(3) as u32,
            };
        }
    }
}
