//! Calls and sessions drawn from a seed: lawful ones, and ones made to be got wrong.

mod big;
mod borders;
mod buffers;
mod builds;
pub mod crossings;
mod damage;
mod damage_days;
mod damage_slots;
mod damaged;
mod day_cases;
mod days;
mod deep;
mod edits;
mod lines;
mod longest;
mod made;
pub mod pieces;
mod questions;
pub mod rounds;
mod rulers;
mod rows;
mod session_lines;
pub mod sessions;
mod size;
mod sweep;
mod tables;
mod times;
mod views;

use crate::call::{Call, Request, MOST_ANSWERS, MOST_DIRECTORY, MOST_ORIGINALS, MOST_REPLICAS, MOST_TABLE};
use crate::model::ruler::KINDS;
use crate::random::Random;
use std::collections::VecDeque;

pub use self::lines::bad_probe_line;
pub use self::longest::ENTRIES as ENTRIES_OF_THE_LONGEST;
pub use self::made::{made, Made};
pub use self::size::{Size, FULL, SMALL};
pub use self::tables::trips;
pub use self::times::time;

/// The first two big scenes come early, so that a short run meets them with rulers of both kinds; the others are rare, as they
/// are slow.
const FIRST_BIG: usize = 100;
const SECOND_BIG: usize = 250;
const NEXT_BIG: usize = 2_500;

/// A group of calls that belong together.
#[derive(Clone, Copy)]
enum Scene {
    Build,
    Damaged,
    Questions,
    EveryTrip,
    Crowd,
    Views,
    Edits,
    Sweep,
    Crossing,
    Deep,
    Days,
}

/// Each scene with its weight. Some draw one call and some a hundred; the weights even that out.
const SCENES: [(Scene, usize); 11] = [
    (Scene::Build, 330),
    (Scene::Damaged, 280),
    (Scene::Questions, 22),
    (Scene::EveryTrip, 4),
    (Scene::Views, 22),
    (Scene::Edits, 9),
    (Scene::Sweep, 2),
    (Scene::Crowd, 2),
    (Scene::Crossing, 60),
    (Scene::Deep, 5),
    (Scene::Days, 8),
];

/// An endless row of calls; the same seed and size give the same row.
pub struct Calls {
    random: Random,
    size: Size,
    waiting: VecDeque<Call>,
    scenes: usize,
    given: usize,
    next_big: usize,
    big_scenes: usize,
}

impl Calls {
    pub fn new(seed: u64, size: Size) -> Calls {
        Calls {
            random: Random::new(seed),
            size,
            waiting: VecDeque::new(),
            scenes: 0,
            given: 0,
            next_big: FIRST_BIG,
            big_scenes: 0,
        }
    }

    fn scene(&mut self) -> Vec<Call> {
        if self.size.big && self.given >= self.next_big {
            return self.big_scene();
        }
        // Each kind once at first, so that a short run has them all.
        let scene = if self.scenes < SCENES.len() { SCENES[self.scenes].0 } else { self.weighted_scene() };
        self.scenes += 1;
        let random = &mut self.random;
        match scene {
            Scene::Build => builds::scene(random, self.size),
            Scene::Damaged => damaged::scene(random, self.size),
            Scene::Questions => questions::scene(random, self.size),
            Scene::EveryTrip => questions::every_trip_scene(random, self.size),
            Scene::Crowd if self.size.big => questions::crowd_scene(random, self.size),
            Scene::Crowd => Vec::new(),
            Scene::Deep if self.size.big => deep::scene(random, self.size),
            Scene::Deep => Vec::new(),
            Scene::Views => views::scene(random, self.size),
            Scene::Edits => edits::scene(random, self.size),
            Scene::Sweep => sweep::scene(random, self.size),
            Scene::Crossing => crossings::scene(random, self.size),
            Scene::Days => day_cases::scene(random, self.size),
        }
    }

    /// The most trips on a ruler of one kind, the longest trips on one of the other; the next time the other way round.
    fn big_scene(&mut self) -> Vec<Call> {
        let number = self.big_scenes;
        self.big_scenes += 1;
        self.next_big = if number == 0 { SECOND_BIG } else { self.given + NEXT_BIG };
        let mut calls = big::scene(&mut self.random, KINDS[number % 2]);
        calls.extend(longest::scene(&mut self.random, KINDS[(number + 1) % 2]));
        calls
    }

    fn weighted_scene(&mut self) -> Scene {
        let total: usize = SCENES.iter().map(|entry| entry.1).sum();
        let mut drawn = self.random.below(total);
        for (scene, weight) in &SCENES {
            if drawn < *weight {
                return *scene;
            }
            drawn -= *weight;
        }
        unreachable!("the weights add up to the total")
    }
}

impl Iterator for Calls {
    type Item = Call;

    fn next(&mut self) -> Option<Call> {
        loop {
            if let Some(call) = self.waiting.pop_front() {
                self.given += 1;
                return Some(call);
            }
            for call in self.scene() {
                if fits(&call) {
                    self.waiting.push_back(call);
                }
            }
        }
    }
}

/// Whether every probe can hold the call. One that needs more is left out.
pub fn fits(call: &Call) -> bool {
    let own = match &call.request {
        Request::Build { table } => table.len() <= MOST_TABLE,
        Request::Ask { answers, .. } => answers.len() <= MOST_ANSWERS,
        _ => true,
    };
    own && call.index.directory.len() <= MOST_DIRECTORY
        && call.index.originals.len() <= MOST_ORIGINALS
        && call.index.replicas.len() <= MOST_REPLICAS
}
