//! Drawn calls counted by name, kind of ruler and number of their answer, and which of those never came.

use crate::call::{Call, NUMBERS};
use crate::generate::{Calls, Size};
use crate::model::ruler::{Kind, KINDS};
use std::collections::BTreeMap;

#[derive(Default)]
pub struct Tally {
    counts: BTreeMap<(String, Kind, u32), usize>,
}

impl Tally {
    pub fn count(&mut self, call: &Call, answer: &str) {
        *self.counts.entry(key(call, answer)).or_insert(0) += 1;
    }

    /// How many like this were counted.
    pub fn of_answer(&self, call: &Call, answer: &str) -> usize {
        self.counts.get(&key(call, answer)).copied().unwrap_or(0)
    }

    pub fn of(&self, name: &str, kind: Kind, number: u32) -> usize {
        self.counts.get(&(name.to_string(), kind, number)).copied().unwrap_or(0)
    }

    pub fn join(&mut self, other: Tally) {
        for (key, count) in other.counts {
            *self.counts.entry(key).or_insert(0) += count;
        }
    }

    /// A line for each call and kind of ruler: how many had each number.
    pub fn print(&self) {
        for (name, numbers) in &NUMBERS {
            for kind in KINDS {
                let mut line = format!("{} {}:", name, kind.name());
                for number in *numbers {
                    line.push_str(&format!(" {} x{}", number, self.of(name, kind, *number)));
                }
                println!("{}", line);
            }
        }
        let all = |kind: Kind| -> usize { self.counts.iter().filter(|(key, _)| key.1 == kind).map(|(_, count)| count).sum() };
        println!("calls under a ruler of w and m: {}, of m, lo and hi: {}", all(Kind::Bits), all(Kind::Spread));
    }

    /// The calls of a size that never had one of the numbers that they can have, under rulers of one kind.
    pub fn missing(&self, size: Size) -> Vec<String> {
        let mut found = Vec::new();
        for (name, numbers) in &NUMBERS {
            for kind in KINDS {
                for number in numbers.iter().filter(|number| self.of(name, kind, **number) == 0) {
                    // "Add: 4,096 trips already."
                    let needs_most_trips = *name == "add" && *number == 2;
                    if size.big || !needs_most_trips {
                        found.push(format!("{} {} never answered {}", name, kind.name(), number));
                    }
                }
            }
        }
        found
    }
}

fn key(call: &Call, answer: &str) -> (String, Kind, u32) {
    (call.name().to_string(), call.ruler.kind(), number_of(answer))
}

/// An answer begins with its number.
fn number_of(answer: &str) -> u32 {
    answer.split(' ').next().and_then(|word| word.parse().ok()).expect("an answer has a number")
}

pub fn tally_of(calls: Calls, many: usize) -> Tally {
    let mut tally = Tally::default();
    for call in calls.take(many) {
        tally.count(&call, &call.answer());
    }
    tally
}
