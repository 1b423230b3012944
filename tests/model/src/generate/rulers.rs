//! Rulers of both kinds within their bounds, rulers outside, and directories of a wrong length.

use super::size::Size;
use crate::model::index::{directory_length, partitions};
use crate::model::ruler::{Kind, Ruler, DEEPEST, KINDS, WIDEST};
use crate::random::Random;

/// The latest hi.
const LATEST: u32 = (1 << WIDEST) - 1;

/// Timetables: from midnight or from 4:00, to 28:00; and a day.
const TIMETABLES: [(u32, u32); 3] = [(0, 100_800), (14_400, 100_800), (0, 86_399)];

pub fn ruler(random: &mut Random, size: Size) -> Ruler {
    let m = level(random, size);
    ruler_with(random, m)
}

/// A deepest level. Deep ones are rare: they make long lines and slow models.
pub fn level(random: &mut Random, size: Size) -> u32 {
    let m = match random.below(100) {
        0..=79 => random.between(0, 4),
        80..=93 => random.between(5, 7),
        94..=97 => random.between(8, 9),
        _ => 10,
    };
    if m > size.deepest {
        size.deepest
    } else {
        m
    }
}

/// Either kind, one as often as the other.
pub fn ruler_with(random: &mut Random, m: u32) -> Ruler {
    let kind = random.pick(&KINDS);
    ruler_of(random, kind, m)
}

pub fn ruler_of(random: &mut Random, kind: Kind, m: u32) -> Ruler {
    match kind {
        Kind::Bits => Ruler::Bits { w: width(random, m), m },
        Kind::Spread => spread(random, m),
    }
}

/// A width that goes with m: as narrow as can be, just wider, days of more than 24 hours, the widest.
pub fn width(random: &mut Random, m: u32) -> u32 {
    let narrowest = if m == 0 { 1 } else { m };
    let w = match random.below(10) {
        0 => narrowest,
        1 | 2 => narrowest + 1,
        3 | 4 => narrowest + random.between(1, 4),
        5 => WIDEST,
        6 => 17,
        7 => 18,
        _ => random.between(narrowest, WIDEST),
    };
    if w > WIDEST {
        WIDEST
    } else {
        w
    }
}

/// A timetable, or any length of time from any lo on: 0, 1, a few, or so late that hi is the latest.
fn spread(random: &mut Random, m: u32) -> Ruler {
    if random.once_in(10) {
        let (lo, hi) = random.pick(&TIMETABLES);
        return Ruler::Spread { m, lo, hi };
    }
    let long = seconds(random, m);
    let most = LATEST - long;
    let lo = match random.below(8) {
        0 | 1 => 0,
        2 => 1,
        3 => most,
        4 | 5 | 6 => random.between(0, 100),
        _ => random.between(0, most),
    };
    let lo = if lo > most { most } else { lo };
    Ruler::Spread { m, lo, hi: lo + long }
}

/// A ruler with so few times that all can be gone through: 2^widest at most.
pub fn small_ruler(random: &mut Random, widest: u32) -> Ruler {
    let w = random.between(1, widest);
    if random.once_in(2) {
        return Ruler::Bits { w, m: random.between(0, w) };
    }
    let lo = random.between(0, 3);
    Ruler::Spread { m: random.between(0, 3), lo, hi: lo + random.between(1, (1 << w) - 1) }
}

/// A ruler each of whose cells has a time: short ones, timetables, the longest.
pub fn wide_ruler(random: &mut Random, kind: Kind, m: u32) -> Ruler {
    if kind == Kind::Bits {
        let w = random.pick(&[m.max(1), m + 1, m + 4, 17, 18, WIDEST]);
        return Ruler::Bits { w, m };
    }
    if random.once_in(2) {
        return very_long_ruler(random, m);
    }
    let last = (1u32 << m) - 1;
    let long = random.pick(&[last.max(1), 100_800]);
    let lo = random.between(0, 100);
    Ruler::Spread { m, lo, hi: lo + long }
}

/// At m = 9 and 10 many of its products need more than 32 bits.
pub fn very_long_ruler(random: &mut Random, m: u32) -> Ruler {
    let lo = random.between(0, LATEST / 4);
    let hi = random.between(LATEST - LATEST / 4, LATEST);
    Ruler::Spread { m, lo: random.pick(&[0, lo]), hi: random.pick(&[LATEST, hi]) }
}

/// hi - lo. Up to 2^m - 2 some cells have no time, at 2^m - 1 each has one, and at a multiple of that all have as many but
/// for the last, which has hi alone.
fn seconds(random: &mut Random, m: u32) -> u32 {
    let last = (1u32 << m) - 1;
    let long = match random.below(12) {
        0 => 1,
        1 => random.between(0, last),
        2 => last,
        3 => last * random.between(2, 9),
        4 => last * random.between(1, 9) + 1,
        5 => (last * random.between(1, 9)).saturating_sub(1),
        6 | 7 => random.between(1, 40),
        8 => random.between(1, 200_000),
        9 => LATEST,
        _ => random.between(1, LATEST),
    };
    if long == 0 {
        1
    } else {
        long
    }
}

/// One of the numbers goes out of bounds, by one or by much, or more than one.
pub fn spoil_ruler(random: &mut Random, ruler: &mut Ruler) {
    match ruler {
        Ruler::Bits { w, m } => spoil_bits(random, w, m),
        Ruler::Spread { m, lo, hi } => spoil_spread(random, m, lo, hi),
    }
}

/// 32 and 64 more than a good number are there for shifts that wrap.
fn spoil_bits(random: &mut Random, w: &mut u32, m: &mut u32) {
    match random.below(10) {
        0 => *w = 0,
        1 => *w = WIDEST + 1,
        2 => *w += 32,
        3 => *w += 64,
        4 => *w = u32::MAX,
        5 => *m = DEEPEST + 1,
        6 => *m = *w + 1,
        7 => *m += 32,
        8 => *m = u32::MAX,
        _ => {
            *w = random.pick(&[0, 25, 31, 32, 33]);
            *m = random.pick(&[0, 10, 11, 31, 32, 33]);
        }
    }
}

fn spoil_spread(random: &mut Random, m: &mut u32, lo: &mut u32, hi: &mut u32) {
    match random.below(16) {
        0 => *hi = *lo,
        1 => *lo = *hi,
        2 => std::mem::swap(lo, hi),
        3 => *lo = *hi + 1,
        4 | 5 | 6 => *hi = LATEST + 1,
        7 => *hi = u32::MAX,
        8 => *hi |= random.pick(&[1 << 24, 1 << 25, 1 << 31]),
        9 => *lo = u32::MAX,
        10 | 11 => *m = DEEPEST + 1,
        12 => *m += 32,
        13 => *m = u32::MAX,
        14 => {
            *lo += 1 << 24;
            *hi += 1 << 24;
        }
        _ => {
            *m = random.pick(&[11, 31, 32, 33, 64, u32::MAX]);
            *lo = random.pick(&[0, 1 << 24, u32::MAX]);
            *hi = random.pick(&[0, 1, 1 << 24, u32::MAX]);
        }
    }
}

/// A directory that is not 4P + 2 words long: by one word, by a half, or of another m.
pub fn spoil_directory(random: &mut Random, m: u32, directory: &mut Vec<u32>) {
    let right = directory_length(m);
    let wrong = match random.below(8) {
        0 => right - 1,
        1 => right + 1,
        2 => 0,
        3 => 2 * partitions(m) + 1,
        4 => 4 * partitions(m),
        5 => directory_length(m + 1),
        6 => right - 2,
        _ => right + 2,
    };
    directory.resize(wrong, 0);
}
