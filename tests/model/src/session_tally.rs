//! What sessions wrote, line by line, and which answers never came.

use std::collections::BTreeMap;

/// The answers of every sort that a session can write, but for the ids of a question.
const ANSWERS: [&str; 12] = [
    "ok",
    "a count",
    "bad line",
    "refused 1",
    "refused 4",
    "refused 5",
    "refused 6",
    "refused 7",
    "refused 9",
    "refused 10",
    "refused 16",
    "refused 17",
];

#[derive(Default)]
pub struct SessionTally {
    counts: BTreeMap<String, usize>,
}

impl SessionTally {
    pub fn count(&mut self, output: &[u8]) {
        for line in String::from_utf8_lossy(output).lines() {
            *self.counts.entry(sort_of(line)).or_insert(0) += 1;
        }
    }

    fn of(&self, answer: &str) -> usize {
        self.counts.get(answer).copied().unwrap_or(0)
    }

    pub fn print(&self) {
        let texts: Vec<String> = ANSWERS.iter().map(|answer| format!("{} x{}", answer, self.of(answer))).collect();
        println!("sessions: {}", texts.join(", "));
    }

    pub fn missing(&self) -> Vec<String> {
        let never = ANSWERS.iter().filter(|answer| self.of(answer) == 0);
        never.map(|answer| format!("no session answered {}", answer)).collect()
    }
}

fn sort_of(line: &str) -> String {
    if line.starts_with(|first: char| first.is_ascii_digit()) {
        "a count".to_string()
    } else {
        line.to_string()
    }
}
