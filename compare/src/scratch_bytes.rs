//! What a call is lent to mark terms in, and what it leaves of it.

use crate::buffers::Fenced;
use leskofar_reference::book_test::SCRATCH_SIZE;
use leskofar_reference::random::{Random, HARDLY_EVER, OFTEN};
use leskofar_reference::refusal::SCRATCH_SHORT;

/// Lengths of scratches: none and nearly none, around the least that is taken,
/// around the 1,024 bytes that were the least before, and a long one.
pub const LENGTHS: [usize; 9] = [0, 1, 127, 128, 129, 1_023, 1_024, 1_025, 5_000];
/// The longest random one.
const LONGEST: usize = 1_100;
/// What each byte holds where it need not be random.
const FILL: u8 = 0xA5;

/// The least scratch that is taken.
pub const LEAST: [u8; SCRATCH_SIZE] = [FILL; SCRATCH_SIZE];

/// A scratch with anything in it, hardly ever too short.
pub fn random_scratch(random: &mut Random) -> Vec<u8> {
    let length = if !random.one_in(HARDLY_EVER) {
        random_length(random)
    } else if random.one_in(OFTEN) {
        SCRATCH_SIZE - 1
    } else {
        random.below(SCRATCH_SIZE)
    };
    random.bytes(length)
}

/// The least length, or a longer one.
fn random_length(random: &mut Random) -> usize {
    if random.one_in(OFTEN) {
        SCRATCH_SIZE
    } else {
        SCRATCH_SIZE + random.up_to(LONGEST - SCRATCH_SIZE)
    }
}

/// Whether these are what a call leaves of a scratch: zero whole, or untouched
/// under 1, and the bytes behind it as they were.
pub fn are_left(scratches: [&Fenced; 2], before: &[u8], refusal: u32) -> bool {
    let mut left = Fenced::holding(before);
    if refusal != SCRATCH_SHORT {
        left.room().fill(0);
    }
    scratches.into_iter().all(|scratch| *scratch == left)
}
