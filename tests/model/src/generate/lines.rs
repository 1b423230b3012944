//! Lines that are no call, for probes: each is answered with `bad line` and the next line is read.

use crate::call::{Call, Request};
use crate::model::ruler::Ruler;
use crate::random::Random;

/// A line of another form, made of a good one. A spoiled line that by chance is a call again is passed over.
pub fn bad_probe_line(random: &mut Random, call: &Call) -> String {
    loop {
        let line = match random.below(5) {
            0 | 1 => spoiled_ruler(random, call),
            2 | 3 => spoiled_line(random, call),
            _ => spoiled_numbers(random, call),
        };
        if Call::read(&line).is_none() {
            return line;
        }
    }
}

fn spoiled_line(random: &mut Random, call: &Call) -> String {
    let line = call.line();
    match random.below(9) {
        0 => format!("{} 0", line),
        1 => match line.rfind(' ') {
            Some(last) => line[..last].to_string(),
            None => String::new(),
        },
        2 => line.replacen(call.name(), "ponder", 1),
        3 => line.replacen(' ', " x", 1),
        4 => line.replacen(' ', " -", 1),
        5 => call.name().to_string(),
        6 => format!("{} 4294967295", call.head()),
        7 => line.replacen(' ', " 4294967296 ", 1),
        _ => line.to_uppercase(),
    }
}

/// The word of the second ruler where it does not belong, missing, doubled or misspelt, and numbers too few or too many after it.
fn spoiled_ruler(random: &mut Random, call: &Call) -> String {
    let line = call.line();
    let rest = &line[call.head().len()..];
    let name = call.name();
    let (m, lo, hi) = match call.ruler {
        Ruler::Bits { w, m } => (m, 0, w),
        Ruler::Spread { m, lo, hi } => (m, lo, hi),
    };
    match random.below(12) {
        0 => format!("{} spread", name),
        1 => format!("{} spread {} {}", name, m, lo),
        2 => format!("{} spread {} {}{}", name, m, hi, rest),
        3 => format!("{} spread {} {} {} {}{}", name, m, lo, hi, hi, rest),
        4 => format!("{} {} {} {}{}", name, m, lo, hi, rest),
        5 => format!("{} spread spread {} {} {}{}", name, m, lo, hi, rest),
        6 => format!("{} {} spread {} {}{}", name, m, lo, hi, rest),
        7 => format!("spread {} {} {} {}{}", name, m, lo, hi, rest),
        8 => format!("{} {} {} {} {}{}", name, misspelt(random), m, lo, hi, rest),
        9 => format!("{} spread{}", call.head(), rest),
        10 => format!("{} spread", line),
        _ => format!("spread {} {} {}{}", m, lo, hi, rest),
    }
}

/// A number too few, as additions and questions had before T-07, or one too many.
fn spoiled_numbers(random: &mut Random, call: &Call) -> String {
    let numbers = match call.request {
        Request::Build { .. } | Request::Check | Request::Census => 0,
        Request::Remove { .. } => 1,
        Request::Run { .. } => 3,
        Request::Add { .. } | Request::Ask { .. } => 4,
    };
    let head = call.head();
    let line = call.line();
    let mut fields: Vec<&str> = line[head.len()..].split_whitespace().collect();
    if numbers > 0 && random.once_in(2) {
        fields.remove(numbers - 1);
    } else {
        fields.insert(numbers, random.pick(&["0", "1", "31", "4294967295"]));
    }
    format!("{} {}", head, fields.join(" "))
}

fn misspelt(random: &mut Random) -> &'static str {
    random.pick(&["Spread", "SPREAD", "spreads", "sprea", "spread ", " spread", "spread,", "spread\t", "bits", ""])
}
