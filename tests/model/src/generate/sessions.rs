//! Inputs for the session program.

use super::days::{day, day_word, no_day};
use super::session_lines::{BAD_FIRST, BAD_LATER, REFUSED_FIRST, TOO_DEEP};
use super::times::{spoil_span, window};
use crate::model::days::{EVERY_DAY, LAST_DAY};
use crate::model::ruler::Ruler;
use crate::model::trip::Trip;
use crate::random::Random;

/// Document 01's own session, "with every bit set and day 0".
pub const EXAMPLE: &[u8] = b"D 6 4\nT 7 21 38 4294967295\nT 3 20 20 4294967295\nT 9 0 63 4294967295\nT 4 39 40 4294967295\n\
Q 13 22 23 0\nQ 13 38 39 0\nQ 5 10 20 0\nX 3\nQ 13 0 63 0\nT 5 40 39 4294967295\n";

/// The same lines as they were before T-07, of which only D is a line now.
const OLD_EXAMPLE: &[u8] = b"D 6 4\nT 7 21 38\nT 3 20 20\nQ 13 22 23\nX 3\n";

/// A week: a trip on every day of it, one on working days, one at its end, and the same times on other days. Then days and day
/// words that are refused, in their order among the other refusals.
const WEEK: &[u8] = b"D 6 4\nT 1 20 30 127\nT 2 20 30 31\nT 3 20 30 96\nT 4 30 31 2147483648\n\
Q 13 20 30 0\nQ 13 20 30 4\nQ 13 20 30 5\nQ 13 20 30 6\nQ 13 20 30 7\nQ 13 20 30 31\nQ 13 20 30 32\nQ 13 20 30 4294967295\n\
Q 13 31 30 32\nQ 13 64 30 32\nQ 14 64 30 32\nT 5 1 1 0\nT 4 1 1 0\nT 4 1 1 1\nT 5 2 1 0\nT 5 64 1 0\n\
X 4\nQ 13 20 30 31\nT 4 1 1 1\nQ 13 0 63 0\n";

/// Longer than any part of the input that a program is likely to read at once.
const LONG: usize = 70_000;

/// The first round goes through every kind of line that ends a session, and through the other fixed ones.
pub const FIRST_ROUND: usize = 240;

/// Session number k of a seed. The first is document 01's own. The first round comes in an order that
/// depends on the seed, with mixed sessions between, so that a few sessions already are of many kinds.
pub fn session_input(seed: u64, k: usize) -> Vec<u8> {
    let mut random = Random::of(seed, k as u64);
    if k < FIRST_ROUND {
        let mut order: Vec<usize> = (1..FIRST_ROUND).collect();
        Random::new(seed).shuffle(&mut order);
        let kind = if k == 0 { 0 } else { order[k - 1] };
        if let Some(input) = fixed_input(&mut random, kind) {
            return input;
        }
    }
    mixed_input(&mut random)
}

/// The fixed sessions; the lines around the one that matters are drawn.
pub fn fixed_input(random: &mut Random, kind: usize) -> Option<Vec<u8>> {
    let specials = special_inputs();
    let mut left = kind;
    if left < specials.len() {
        return Some(specials[left].clone());
    }
    left -= specials.len();
    for first in [&BAD_FIRST[..], &TOO_DEEP[..], &REFUSED_FIRST[..]] {
        if left < first.len() {
            return Some(ended_at_once(random, first[left]));
        }
        left -= first.len();
    }
    if left < BAD_LATER.len() {
        return Some(ended_later(random, BAD_LATER[left]));
    }
    left -= BAD_LATER.len();
    match left {
        0 => Some(full_session(random, false)),
        1 => Some(full_session(random, true)),
        2 => Some(long_session(random, true)),
        3 => Some(long_session(random, false)),
        _ => None,
    }
}

fn special_inputs() -> Vec<Vec<u8>> {
    let zeros = [b"D 6 4\nT ".to_vec(), vec![b'0'; LONG], b"1 2 3 4\nX 1\n".to_vec()].concat();
    let spaces = [b"D 6 4\n".to_vec(), vec![b' '; LONG], b"\nX 1\n".to_vec()].concat();
    let letters = [vec![b'T'; LONG], b"\n".to_vec()].concat();
    let no_newline = [b"D 6 4\nT 1 ".to_vec(), vec![b'1'; LONG]].concat();
    vec![
        EXAMPLE.to_vec(),
        EXAMPLE[..EXAMPLE.len() - 1].to_vec(),
        b"".to_vec(),
        b"\n".to_vec(),
        b"\n\n".to_vec(),
        b"D 6 4".to_vec(),
        b"D 6 4\n".to_vec(),
        b"D 6 4\n\n".to_vec(),
        OLD_EXAMPLE.to_vec(),
        WEEK.to_vec(),
        b"D 6 4\r\nT 1 2 3 4\r\n".to_vec(),
        b"D 0000000006 0000000004\nT 0000000001 0000000002 0000000003 2147483648\nQ 0000000013 0000000002 2 0000000031".to_vec(),
        b"D 6 4\nT 1 2 3 0000000000\nT 1 2 3 0000000001\nQ 13 0000000000 0000000063 0000000000\nQ 13 0 63 0000000032".to_vec(),
        b"D 6 4\nT 4294967295 0 0 1\nT 0 0 0 1\nQ 13 0 0 0\nX 4294967295\nX 4294967295\nX 0\nQ 13 0 63 0".to_vec(),
        b"D 6 4\nT 4294967295 4294967295 4294967295 4294967295\nQ 4294967295 4294967295 4294967295 4294967295".to_vec(),
        b"D 6 4\nT 1 2".to_vec(),
        b"D 6 4\nT 1 2 3".to_vec(),
        b"D 6 4\nQ 13 0 1".to_vec(),
        b"D 6 4\nX".to_vec(),
        zeros,
        spaces,
        letters,
        no_newline,
    ]
}

/// Good lines follow the one that ends the session: they must be left unread.
fn ended_at_once(random: &mut Random, first: &[u8]) -> Vec<u8> {
    let mut input = first.to_vec();
    input.push(b'\n');
    if !random.once_in(3) {
        input.extend(EXAMPLE);
    } else if !first.is_empty() {
        input.pop();
    }
    input
}

fn ended_later(random: &mut Random, bad: &[u8]) -> Vec<u8> {
    let mut input = good_session(random, 6, true);
    input.extend(bad);
    if bad.is_empty() || !random.once_in(3) {
        input.push(b'\n');
        input.extend(b"T 1000 0 1 1\nQ 13 0 1 0\n");
    }
    input
}

fn mixed_input(random: &mut Random) -> Vec<u8> {
    match random.below(20) {
        0 => {
            let first = random.pick(&BAD_FIRST);
            ended_at_once(random, first)
        }
        1 => {
            let first = random.pick(&REFUSED_FIRST);
            ended_at_once(random, first)
        }
        2 | 3 | 4 => {
            let bad = random.pick(&BAD_LATER);
            ended_later(random, bad)
        }
        5 => {
            let widest = random.once_in(2);
            full_session(random, widest)
        }
        6 => {
            let mut input = good_session(random, 10, false);
            spoil_byte(random, &mut input);
            input
        }
        _ => {
            let last_newline = !random.once_in(5);
            good_session(random, 60, last_newline)
        }
    }
}

/// One byte of a good session changed, taken out or put in. What this gives is for the model to say.
fn spoil_byte(random: &mut Random, input: &mut Vec<u8>) {
    let k = random.below(input.len());
    let byte = random.pick(b"\n\r\t\0 0123456789+-DTXQdtxq\xff");
    match random.below(3) {
        0 => input[k] = byte,
        1 => {
            input.remove(k);
        }
        _ => input.insert(k, byte),
    }
}

/// A ruler that sessions allow.
fn session_ruler(random: &mut Random) -> (u32, u32) {
    let m = random.pick(&[0, 1, 2, 2, 3, 3, 4, 4, 5, 6, 8]);
    let narrowest = if m == 0 { 1 } else { m };
    let w = random.pick(&[narrowest, narrowest + 1, narrowest + 3, 6.max(m), 18, 24]);
    (w, m)
}

/// A number as a line may have it: plain, or with leading zeros up to ten digits.
fn written(random: &mut Random, number: u32) -> String {
    match random.below(12) {
        0 => format!("{:010}", number),
        1 => format!("{:03}", number),
        _ => number.to_string(),
    }
}

fn push_line(random: &mut Random, input: &mut Vec<u8>, name: &str, numbers: &[u32]) {
    input.extend(name.as_bytes());
    for number in numbers {
        input.push(b' ');
        input.extend(written(random, *number).as_bytes());
    }
    input.push(b'\n');
}

/// A day word that is zero at times.
fn session_days(random: &mut Random) -> u32 {
    if random.once_in(12) {
        0
    } else {
        day_word(random)
    }
}

/// Lines that are all well formed; some are refused, which does not end the session.
fn good_session(random: &mut Random, most: usize, last_newline: bool) -> Vec<u8> {
    let (w, m) = session_ruler(random);
    let ruler = Ruler::Bits { w, m };
    let mut input = Vec::new();
    push_line(random, &mut input, "D", &[w, m]);
    // What was sent, whether or not it was accepted: good enough to draw the next lines from.
    let mut sent: Vec<Trip> = Vec::new();
    for _ in 0..random.below(most + 1) {
        let (start, end) = window(random, ruler, &sent);
        match random.below(10) {
            0 | 1 | 2 | 3 => {
                let small = random.below(20) as u32;
                let any = random.word();
                let id = random.pick(&[small, small, small, any, 0, u32::MAX]);
                let trip = Trip { id, start, end, days: session_days(random) };
                push_line(random, &mut input, "T", &trip.words());
                if start <= end && end < 1 << w && trip.days > 0 {
                    sent.push(trip);
                }
            }
            4 | 5 => {
                let small = random.below(20) as u32;
                let id = if sent.is_empty() || random.once_in(5) { small } else { random.pick(&sent).id };
                push_line(random, &mut input, "X", &[id]);
            }
            _ => {
                let code = if random.once_in(16) { random.pick(&[14, 15, u32::MAX]) } else { random.between(0, 13) };
                let day = day(random, &sent);
                push_line(random, &mut input, "Q", &[code, start, end, day]);
            }
        }
    }
    if !last_newline {
        input.pop();
    }
    input
}

/// A day of good lines that no read has at once; with a bad line in its last part, or without the last newline.
fn long_session(random: &mut Random, bad_line: bool) -> Vec<u8> {
    let (w, m) = (12, random.between(0, 4));
    let ruler = Ruler::Bits { w, m };
    let mut input = Vec::new();
    push_line(random, &mut input, "D", &[w, m]);
    while input.len() < LONG {
        let id = random.below(24) as u32;
        let (start, end) = window(random, ruler, &[]);
        match random.below(4) {
            0 | 1 => {
                let days = session_days(random);
                push_line(random, &mut input, "T", &[id, start, end, days]);
            }
            2 => push_line(random, &mut input, "X", &[id]),
            _ => {
                let code = random.between(0, 13);
                let day = day(random, &[]);
                push_line(random, &mut input, "Q", &[code, start, end, day]);
            }
        }
    }
    if bad_line {
        input.extend(b"T 1 2 3\nQ 13 0 1 0\n");
    } else {
        input.pop();
    }
    input
}

/// 256 trips; then a 257th with and without other faults; then room is freed and taken again. With the
/// widest trips at the deepest level all 3,328 replicas are in use.
fn full_session(random: &mut Random, widest: bool) -> Vec<u8> {
    let (w, m) = if widest { (random.pick(&[8, 9, 17, 24]), 8) } else { (10, random.between(0, 3)) };
    let times = 1u32 << w;
    let cell = 1u32 << (w - m);
    let mut input = Vec::new();
    push_line(random, &mut input, "D", &[w, m]);
    let mut ids: Vec<u32> = (0..256).collect();
    random.shuffle(&mut ids);
    for id in &ids {
        let (start, end) = if widest {
            (cell + random.between(0, cell - 1), times - cell - 1 - random.between(0, cell - 1))
        } else {
            let start = random.between(0, times - 1);
            (start, random.between(start, times - 1))
        };
        // Every trip runs on the last day.
        let days = day_word(random) | 1 << LAST_DAY;
        push_line(random, &mut input, "T", &[*id, start, end, days]);
    }
    for day in [LAST_DAY, 0, no_day(random)] {
        push_line(random, &mut input, "Q", &[13, 0, times - 1, day]);
    }
    push_line(random, &mut input, "T", &[1000, 0, 0, 1]);
    push_line(random, &mut input, "T", &[1000, 0, 0, 0]);
    push_line(random, &mut input, "T", &[ids[0], 0, 0, 0]);
    push_line(random, &mut input, "T", &[1000, 1, 0, 0]);
    let (start, end) = spoil_span(random, Ruler::Bits { w, m }, 1, 0);
    push_line(random, &mut input, "T", &[1000, start, end, 1]);
    push_line(random, &mut input, "X", &[ids[9]]);
    push_line(random, &mut input, "T", &[1000, cell % times, times - 1, EVERY_DAY]);
    push_line(random, &mut input, "T", &[1001, 0, 0, 1]);
    for code in 0..14 {
        let (start, end) = (random.between(0, times / 2), random.between(times / 2, times - 1));
        let day = day(random, &[]);
        push_line(random, &mut input, "Q", &[code, start, end, day]);
    }
    input
}
