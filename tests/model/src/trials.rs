//! What the drawn calls are worth: which answers they bring about, and which faults they show.

use crate::faults::{with_fault, FAULTS};
use crate::generate::sessions::session_input;
use crate::generate::Calls;
use crate::options::Options;
use crate::session::session;
use crate::tally::tally_of;

pub fn tally(seed: u64, many: usize, options: &Options) -> bool {
    tally_of(Calls::new(seed, options.size), many).print();
    true
}

/// Originals of so many words make a slow call.
const LARGE: usize = 300;

/// Each planted fault must change the answer to some call or session. A large call is tried only with those that no call has
/// shown yet.
pub fn faults(seed: u64, many: usize, options: &Options) -> bool {
    let mut in_calls = vec![Noticed::default(); FAULTS.len()];
    for (k, call) in Calls::new(seed, options.size).take(many).enumerate() {
        let large = call.index.originals.len() > LARGE;
        let right = call.answer();
        for (noticed, fault) in in_calls.iter_mut().zip(&FAULTS) {
            if !large || noticed.times == 0 {
                noticed.count(k, with_fault(Some(fault.1), || call.answer()) != right);
            }
        }
    }
    let mut in_sessions = vec![Noticed::default(); FAULTS.len()];
    for k in 0..options.sessions {
        let input = session_input(seed, k);
        let right = session(&input);
        for (noticed, fault) in in_sessions.iter_mut().zip(&FAULTS) {
            noticed.count(k, with_fault(Some(fault.1), || session(&input)) != right);
        }
    }
    let mut all = true;
    for (k, (name, _, meaning)) in FAULTS.iter().enumerate() {
        let found = in_calls[k].times + in_sessions[k].times > 0;
        println!(
            "{} {}: {} in {} calls{}, {} in {} sessions{} ({})",
            if found { "noticed" } else { "NOT NOTICED" },
            name,
            in_calls[k].times,
            many,
            in_calls[k].first_text(),
            in_sessions[k].times,
            options.sessions,
            in_sessions[k].first_text(),
            meaning
        );
        all = all && found;
    }
    all
}

#[derive(Clone, Default)]
struct Noticed {
    times: usize,
    first: Option<usize>,
}

impl Noticed {
    fn count(&mut self, k: usize, differs: bool) {
        if differs {
            self.times += 1;
            self.first = self.first.or(Some(k));
        }
    }

    fn first_text(&self) -> String {
        match self.first {
            Some(first) => format!(" (first: {})", first),
            None => String::new(),
        }
    }
}
