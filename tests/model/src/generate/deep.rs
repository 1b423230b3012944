//! Calls on the deepest levels of very long second rulers, where a product needs more than 32 bits.

use super::damaged::any_call;
use super::made::made_of;
use super::rulers::very_long_ruler;
use super::size::Size;
use super::tables::scattered_trips;
use crate::call::Call;
use crate::random::Random;

const CALLS: usize = 5;

pub fn scene(random: &mut Random, size: Size) -> Vec<Call> {
    let m = random.between(9, 10);
    let ruler = very_long_ruler(random, m);
    let trips = scattered_trips(random, ruler, size.trips);
    let made = made_of(random, size, ruler, trips);
    (0..CALLS).map(|_| any_call(random, size, &made)).collect()
}
