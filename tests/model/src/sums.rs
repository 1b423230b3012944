//! The counts of one window and day under every code. Of codes 0 to 12 exactly one holds for each trip, so their counts add up
//! to the trips that run that day (T-02, T-07); G-OVERLAPS holds where neither BEFORE nor AFTER does, so those of codes 0 to 10
//! add up to its own. Nothing here knows what a relationship is: this holds of the answers of any program, the model's too.

use crate::call::{Call, Request};
use crate::model::ask::Question;
use crate::model::relation::{BEFORE, CODES, G_OVERLAPS};
use crate::model::trip::{trips_of, ENTRY_WORDS};

#[derive(Default)]
pub struct Sums {
    pub right: usize,
    pub wrong: usize,
    counts: Vec<u32>,
}

impl Sums {
    /// The answer to the next question of a round.
    pub fn see(&mut self, call: &Call, answer: &str) {
        let Request::Ask { question: Question { code, day, .. }, .. } = call.request else { return };
        self.counts.extend(count_of(answer));
        if code + 1 < CODES {
            return;
        }
        if self.add_up(trips_of_day(call, day)) {
            self.right += 1;
        } else {
            self.wrong += 1;
        }
        self.counts.clear();
    }

    fn add_up(&self, trips: u32) -> bool {
        let up_to = |code: u32| self.counts[..code as usize].iter().sum::<u32>();
        self.counts.len() == CODES as usize
            && up_to(G_OVERLAPS) == trips
            && up_to(BEFORE) == self.counts[G_OVERLAPS as usize]
    }
}

/// The count of an accepted question, the third number of its answer.
fn count_of(answer: &str) -> Option<u32> {
    answer.strip_prefix("0 0 ")?.split(' ').next()?.parse().ok()
}

/// The originals whose day word has the day's bit. How many originals there are is the last word of their half of the directory.
fn trips_of_day(call: &Call, day: u32) -> u32 {
    let directory = &call.index.directory;
    let all = directory[directory.len() / 2 - 1] as usize;
    let trips = trips_of(&call.index.originals[..ENTRY_WORDS * all]);
    trips.iter().filter(|trip| trip.days >> day & 1 == 1).count() as u32
}
