//! What became of words that were handed in under another ruler than their own: an index there too, or refusal 8.

use crate::generate::crossings::PAIRS;

#[derive(Clone, Copy, Default)]
struct Count {
    accepted: usize,
    no_index: usize,
    otherwise: usize,
}

/// The answers come in the order of the row, whose calls go through the pairs of kinds by turns.
#[derive(Default)]
pub struct Crossed {
    seen: usize,
    counts: [Count; PAIRS.len()],
}

impl Crossed {
    pub fn see(&mut self, answer: &str) {
        let count = &mut self.counts[self.seen % PAIRS.len()];
        self.seen += 1;
        match answer.split(' ').next() {
            Some("0") => count.accepted += 1,
            Some("8") => count.no_index += 1,
            // Words that pass and then another refusal, as of a window or an id.
            _ => count.otherwise += 1,
        }
    }

    pub fn print(&self) {
        for ((own, named), count) in PAIRS.iter().zip(&self.counts) {
            println!(
                "words of a {} ruler under another, {}: {} accepted, {} with 8, {} refused otherwise",
                own.name(),
                named.name(),
                count.accepted,
                count.no_index,
                count.otherwise
            );
        }
    }

    /// The pairs of which none was accepted, or none got 8.
    pub fn missing(&self) -> Vec<String> {
        let mut found = Vec::new();
        for ((own, named), count) in PAIRS.iter().zip(&self.counts) {
            let what = format!("words of a {} ruler under another, {}", own.name(), named.name());
            if count.accepted == 0 {
                found.push(format!("{}: none was accepted", what));
            }
            if count.no_index == 0 {
                found.push(format!("{}: none got 8", what));
            }
        }
        found
    }
}
