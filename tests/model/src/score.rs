//! How many answers agreed and how many differed, and the first differences in full.

use crate::days_met::DaysMet;
use crate::tally::Tally;

/// Differences shown in full; later ones are only counted.
const SHOWN: usize = 5;
/// Characters of a line that are shown.
const SHOWN_TEXT: usize = 3_000;

#[derive(Default)]
pub struct Score {
    pub agreed: usize,
    pub differed: usize,
    pub tally: Tally,
    pub days: DaysMet,
}

impl Score {
    pub fn all(&self) -> usize {
        self.agreed + self.differed
    }

    pub fn join(&mut self, other: Score) {
        self.agreed += other.agreed;
        self.differed += other.differed;
        self.tally.join(other.tally);
        self.days.join(other.days);
    }

    /// Shows the first few differences.
    pub fn count(&mut self, what: &str, input: &str, expected: &str, given: &str) {
        if expected == given {
            self.agreed += 1;
            return;
        }
        self.differed += 1;
        if self.differed <= SHOWN {
            println!("{} differs{}", what, first_difference(expected, given));
            println!("  input:    {}", shown(input));
            println!("  expected: {}", shown(expected));
            println!("  given:    {}", shown(given));
        }
    }
}

fn shown(text: &str) -> String {
    let start: String = text.chars().take(SHOWN_TEXT).collect();
    if start.len() == text.len() {
        start
    } else {
        format!("{} ... ({} characters)", start, text.chars().count())
    }
}

fn first_difference(expected: &str, given: &str) -> String {
    let mut words = expected.split(' ');
    for (k, word) in given.split(' ').enumerate() {
        let right = words.next();
        if right != Some(word) {
            return format!(", first at word {} of the answer: {} for {}", k, shown(word), right.unwrap_or("the end"));
        }
    }
    ", the answer ends too early".to_string()
}
