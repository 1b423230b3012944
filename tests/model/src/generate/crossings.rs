//! Words of one ruler, handed in under another of the same m. Some are an index under both; others are none under the one
//! that the call names, whole and sound as they are.

use super::damaged::any_call;
use super::made::made_of;
use super::rulers::{level, ruler_of, width};
use super::size::{Size, FULL, SMALL};
use super::tables::trips;
use crate::call::Call;
use crate::model::places::places;
use crate::model::ruler::{Kind, Ruler};
use crate::model::trip::Trip;
use crate::random::Random;

/// The kind of the words' own ruler, and the kind of the one that the call names.
pub type Pair = (Kind, Kind);

pub const PAIRS: [Pair; 4] = [
    (Kind::Bits, Kind::Spread),
    (Kind::Spread, Kind::Bits),
    (Kind::Spread, Kind::Spread),
    (Kind::Bits, Kind::Bits),
];

/// An endless row: call k is of pair k modulo 4. The same seed gives the same row.
pub fn crossings(seed: u64) -> impl Iterator<Item = Call> + Send {
    let mut random = Random::of(seed, 3);
    PAIRS.iter().cycle().map(move |pair| {
        let size = if random.once_in(4) { FULL } else { SMALL };
        crossing(&mut random, size, *pair)
    })
}

pub fn scene(random: &mut Random, size: Size) -> Vec<Call> {
    let pair = random.pick(&PAIRS);
    vec![crossing(random, size, pair)]
}

/// A call on the index of trips that lie in the same partitions under both rulers; or of these with one trip that does not, if
/// there is one; or of any trips.
fn crossing(random: &mut Random, size: Size, pair: Pair) -> Call {
    let m = level(random, size);
    let (own, named) = two_rulers(random, m, pair);
    let all = trips(random, own, size.trips);
    let (mut rows, others): (Vec<Trip>, Vec<Trip>) = all.iter().partition(|trip| lies_alike(own, named, trip));
    match random.below(3) {
        0 => rows = all,
        1 => rows.extend(others.first()),
        _ => {}
    }
    let mut made = made_of(random, size, own, rows);
    made.ruler = named;
    any_call(random, size, &made)
}

fn lies_alike(own: Ruler, named: Ruler, trip: &Trip) -> bool {
    named.on_ruler(trip.start) && named.on_ruler(trip.end) && places(own, trip) == places(named, trip)
}

fn two_rulers(random: &mut Random, m: u32, pair: Pair) -> (Ruler, Ruler) {
    match pair {
        (Kind::Bits, Kind::Spread) => {
            let w = width(random, m);
            (Ruler::Bits { w, m }, spread_like(random, w, m))
        }
        (Kind::Spread, Kind::Bits) => {
            let (named, own) = two_rulers(random, m, (Kind::Bits, Kind::Spread));
            (own, named)
        }
        (Kind::Spread, Kind::Spread) => {
            let own = ruler_of(random, Kind::Spread, m);
            (own, moved(random, own))
        }
        (Kind::Bits, Kind::Bits) => {
            let own = ruler_of(random, Kind::Bits, m);
            (own, other_than(random, own))
        }
    }
}

/// A second ruler with the cells of the first as far as it goes, hi being the first time of the last cell; one with the times
/// of the first; or any.
fn spread_like(random: &mut Random, w: u32, m: u32) -> Ruler {
    let last = (1 << w) - 1;
    match random.below(4) {
        0 | 1 if m > 0 => Ruler::Spread { m, lo: 0, hi: ((1 << m) - 1) << (w - m) },
        0 | 1 | 2 => Ruler::Spread { m, lo: 0, hi: last },
        _ => ruler_of(random, Kind::Spread, m),
    }
}

/// An end moved by one, both moved, twice as long, from earlier on; where that is no other ruler, any.
fn moved(random: &mut Random, own: Ruler) -> Ruler {
    let Ruler::Spread { m, lo, hi } = own else { return other_than(random, own) };
    let (lo, hi) = match random.below(6) {
        0 => (lo, hi + 1),
        1 => (lo, hi - 1),
        2 => (lo + 1, hi),
        3 => (lo + 1, hi + 1),
        4 => (lo, lo + 2 * (hi - lo)),
        _ => (lo / 2, hi),
    };
    let other = Ruler::Spread { m, lo, hi };
    if other != own && other.in_bounds() {
        other
    } else {
        other_than(random, own)
    }
}

fn other_than(random: &mut Random, own: Ruler) -> Ruler {
    loop {
        let other = ruler_of(random, own.kind(), own.m());
        if other != own {
            return other;
        }
    }
}
