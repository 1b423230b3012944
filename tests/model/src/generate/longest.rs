//! Tables of the longest trips on a ruler of the deepest level: each from the second cell to the last but one, in 18 partitions,
//! one original and 17 replicas. As many trips as a probe has room for.

use super::buffers::{dirty, dirty_index};
use super::days::day;
use super::made::{index_of, needed_words, new_id};
use super::rulers::wide_ruler;
use super::tables::longest_trips;
use super::times::window;
use crate::call::{Call, Request, MOST_REPLICAS};
use crate::model::ask::Question;
use crate::model::edit::remove;
use crate::model::relation::G_OVERLAPS;
use crate::model::ruler::{Kind, Ruler, DEEPEST};
use crate::model::trip::{words_of, Trip, ENTRY_WORDS};
use crate::random::Random;

/// The entries of such a trip, one of them an original.
pub const ENTRIES: usize = 18;

pub fn scene(random: &mut Random, kind: Kind) -> Vec<Call> {
    let ruler = wide_ruler(random, kind, DEEPEST);
    let trips = longest_trips(random, ruler, MOST_REPLICAS / (ENTRY_WORDS * (ENTRIES - 1)));
    let (originals, replicas) = needed_words(ruler, &trips);
    let mut calls = Vec::new();
    for (originals, replicas) in [(originals, replicas), (originals - 1, replicas), (originals, replicas - 1)] {
        let index = dirty_index(random, DEEPEST, originals, replicas);
        calls.push(Call { ruler, request: Request::Build { table: words_of(&trips) }, index });
    }
    // The originals have room for one trip more, the replicas have none.
    let index = index_of(ruler, &trips, originals + ENTRY_WORDS, replicas);
    for request in requests(random, ruler, &trips) {
        calls.push(Call { ruler, request, index: index.clone() });
    }
    let mut less = index.clone();
    let gone = random.pick(&trips);
    remove(ruler, gone.id, &mut less);
    calls.push(Call { ruler, request: Request::Add { trip: gone }, index: less });
    let mut damaged = index;
    damaged.replicas[random.below(replicas)] ^= 1;
    calls.push(Call { ruler, request: Request::Check, index: damaged });
    calls
}

fn requests(random: &mut Random, ruler: Ruler, trips: &[Trip]) -> Vec<Request> {
    let one_more = Trip { id: new_id(random, trips), ..random.pick(trips) };
    let (start, end) = window(random, ruler, trips);
    let day = day(random, trips);
    let answers = dirty(random, trips.len());
    let level = random.between(2, ruler.m());
    vec![
        Request::Check,
        Request::Census,
        Request::Run { level, partition: 1, subdivision: random.between(0, 3) },
        Request::Run { level, partition: (1 << level) - 2, subdivision: random.between(0, 3) },
        Request::Ask { question: Question { code: G_OVERLAPS, start, end, day }, answers: answers.clone() },
        Request::Ask { question: Question { code: random.between(0, G_OVERLAPS - 1), start, end, day }, answers },
        Request::Add { trip: one_more },
        Request::Remove { id: random.pick(trips).id },
    ]
}
