//! How a session's input reaches the program: whole, cut inside its lines, or byte by byte.

use crate::random::Random;

/// Byte by byte only where that does not take long.
const FEW_BYTES: usize = 800;

/// The pieces in which session k of a seed is written; a program may read any of them by itself, so none of this may change an
/// answer.
pub fn cut_into_pieces(seed: u64, k: usize, input: &[u8]) -> Vec<Vec<u8>> {
    let mut random = Random::of(seed, !(k as u64));
    match k % 3 {
        0 => vec![input.to_vec()],
        1 if input.len() <= FEW_BYTES => input.chunks(1).map(|byte| byte.to_vec()).collect(),
        _ => cut(&mut random, input),
    }
}

/// A few cuts, each inside a line or beside its newline.
fn cut(random: &mut Random, input: &[u8]) -> Vec<Vec<u8>> {
    let mut places = vec![0, input.len()];
    for _ in 0..random.below(12) + 1 {
        let place = random.below(input.len() + 1);
        places.push(place);
        let newline = input[..place].iter().rposition(|byte| *byte == b'\n');
        if let (Some(newline), true) = (newline, random.once_in(3)) {
            places.push(newline + random.below(2));
        }
    }
    places.sort_unstable();
    let mut pieces = Vec::new();
    for pair in places.windows(2) {
        if pair[0] < pair[1] {
            pieces.push(input[pair[0]..pair[1]].to_vec());
        }
    }
    pieces
}
