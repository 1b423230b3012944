//! Day words, and days to ask for.

use crate::model::days::{EVERY_DAY, LAST_DAY};
use crate::model::trip::Trip;
use crate::random::Random;

/// Days past the last: the next ones, and some that are days again where a number is cut.
const NO_DAYS: [u32; 9] = [32, 32, 33, 63, 64, 256, 1 << 16, 1 << 31, u32::MAX];

/// Days 0 to 6 are a week: its working days, and its end.
const WEEKDAYS: u32 = 0b001_1111;
const WEEKEND: u32 = 0b110_0000;

/// A word that is not zero: every bit, one bit, bit 31 alone, all bits but one, some.
pub fn day_word(random: &mut Random) -> u32 {
    let any = random.word();
    let one = one_day(random);
    match random.below(10) {
        0 | 1 => EVERY_DAY,
        2 => one,
        3 => 1 << LAST_DAY,
        4 => 1,
        5 => !one,
        6 => random.pick(&[WEEKDAYS, WEEKEND]),
        // As few bits as the days of a week, so that trips share days and miss each other.
        7 => random.between(1, WEEKDAYS | WEEKEND),
        _ => if any == 0 { one } else { any },
    }
}

fn one_day(random: &mut Random) -> u32 {
    1 << random.between(0, LAST_DAY)
}

/// A word with days and without, so that what it leaves out is a day word too.
pub fn part_of_the_days(random: &mut Random) -> u32 {
    loop {
        let word = day_word(random);
        if word != EVERY_DAY {
            return word;
        }
    }
}

/// About half of the days.
pub fn half_of_the_days(random: &mut Random) -> u32 {
    loop {
        let word = random.word();
        if word != 0 && word != EVERY_DAY {
            return word;
        }
    }
}

/// A day that is one.
pub fn lawful_day(random: &mut Random, trips: &[Trip]) -> u32 {
    let any = random.between(0, LAST_DAY);
    match random.below(8) {
        0 => 0,
        1 => LAST_DAY,
        2 | 3 | 4 if !trips.is_empty() => {
            let days = random.pick(trips).days;
            day_among(random, days)
        }
        5 => {
            let free = !trips.iter().fold(0, |all, trip| all | trip.days);
            day_among(random, free)
        }
        _ => any,
    }
}

/// A day as a question may have it: one time in ten it is none.
pub fn day(random: &mut Random, trips: &[Trip]) -> u32 {
    if random.once_in(10) {
        no_day(random)
    } else {
        lawful_day(random, trips)
    }
}

pub fn no_day(random: &mut Random) -> u32 {
    let any = random.between(LAST_DAY + 1, u32::MAX);
    if random.once_in(8) {
        any
    } else {
        random.pick(&NO_DAYS)
    }
}

/// One of the days of a word; where it has none, any.
pub fn day_among(random: &mut Random, days: u32) -> u32 {
    let known: Vec<u32> = (0..=LAST_DAY).filter(|day| days >> day & 1 == 1).collect();
    if known.is_empty() {
        random.between(0, LAST_DAY)
    } else {
        random.pick(&known)
    }
}

/// Some neighbours of a table get the same times, and no day in common.
pub fn pair_up(random: &mut Random, trips: &mut [Trip]) {
    for pair in trips.chunks_exact_mut(2) {
        if random.once_in(2) {
            pair[1].start = pair[0].start;
            pair[1].end = pair[0].end;
            set_apart(random, pair);
        }
    }
}

/// All other days, or one of them alone.
fn set_apart(random: &mut Random, pair: &mut [Trip]) {
    pair[0].days = part_of_the_days(random);
    let other_days = !pair[0].days;
    pair[1].days = if random.once_in(2) { other_days } else { 1 << day_among(random, other_days) };
}
