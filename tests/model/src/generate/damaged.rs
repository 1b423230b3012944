//! Every call but build, over damaged indices and with further faults beside the damage.

use super::damage::damage;
use super::edits::{addition, removal};
use super::made::{made, Made};
use super::questions::{any_code, question};
use super::rulers::{spoil_directory, spoil_ruler};
use super::size::Size;
use super::times::window;
use super::views::any_run;
use crate::call::{Call, Request};
use crate::random::Random;

pub fn scene(random: &mut Random, size: Size) -> Vec<Call> {
    let mut made = made(random, size);
    if !random.once_in(10) {
        damage(random, &mut made);
    }
    let mut call = any_call(random, size, &made);
    spoil_head(random, &mut call);
    vec![call]
}

/// One of the six calls on an index; check more often, as it shows refusal 8 alone.
pub fn any_call(random: &mut Random, size: Size, made: &Made) -> Call {
    match random.below(8) {
        0 | 1 | 2 => plain(made, Request::Check),
        3 => addition(random, made),
        4 => removal(random, made),
        5 => {
            let (start, end) = window(random, made.ruler, &made.trips);
            let code = any_code(random);
            question(random, size, made, code, start, end)
        }
        6 => {
            let request = any_run(random, made);
            plain(made, request)
        }
        _ => plain(made, Request::Census),
    }
}

pub fn plain(made: &Made, request: Request) -> Call {
    Call { ruler: made.ruler, request, index: made.index.clone() }
}

/// Refusals 1 and 3 come before 8, whatever the words are.
pub fn spoil_head(random: &mut Random, call: &mut Call) {
    if random.once_in(6) {
        spoil_directory(random, call.ruler.m(), &mut call.index.directory);
    }
    if random.once_in(6) {
        spoil_ruler(random, &mut call.ruler);
    }
}
