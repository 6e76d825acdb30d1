//! What a printing call leaves, of the library and of the reference: the
//! answer, and every byte of text and scratch and behind them.

use crate::buffers::Fenced;
use crate::library::Printed;
use crate::scratch_bytes::are_left;
use crate::tally::Met;

/// A text longer than this gets only buffers that are too short.
pub const LONGEST: u64 = 1 << 24;
pub const SHORT_ROOMS: [usize; 3] = [0, 1, 100];
/// How much longer than its text a buffer is, at most.
pub const LONGER: usize = 9;
/// The numbers of the refusals that a call on a book has.
pub const ON_A_BOOK: [u32; 10] = [0, 1, 2, 3, 4, 5, 6, 28, 7, 10];

/// What a call leaves.
pub struct Left {
    answer: Printed,
    text: Fenced,
    scratch: Fenced,
}

impl Left {
    /// 0 where the call is accepted.
    pub fn refusal(&self) -> u32 {
        self.answer.refusal
    }

    pub fn text(&self) -> &[u8] {
        &self.text.content()[..self.answer.length as usize]
    }
}

/// Runs a call with a text buffer of `room` bytes and bytes behind it.
pub fn left(
    room: usize,
    scratch: &[u8],
    call: impl FnOnce(&mut [u8], &mut [u8]) -> Printed,
) -> Left {
    let mut text = Fenced::new(room);
    let mut scratch = Fenced::holding(scratch);
    let answer = call(scratch.room(), text.room());
    Left {
        answer,
        text,
        scratch,
    }
}

/// The reference's answer, as the library tells it.
pub fn told(answer: Result<usize, u32>) -> Printed {
    match answer {
        Ok(length) => Printed {
            refusal: 0,
            length: length as u64,
        },
        Err(refusal) => Printed { refusal, length: 0 },
    }
}

/// Compares what both leave, where the scratch held this before; `call` says
/// which call it was. Gives what the library left.
pub fn compare(
    met: &mut Met,
    theirs: Left,
    ours: Left,
    scratch: &[u8],
    call: impl FnOnce() -> String,
) -> Result<Left, String> {
    met.add(theirs.refusal());
    let what = if ours.answer != theirs.answer {
        format!("{:?}, expected {:?}", ours.answer, theirs.answer)
    } else if ours.text != theirs.text {
        format!("another text after {:?}", ours.answer)
    } else if !are_left([&ours.scratch, &theirs.scratch], scratch, ours.refusal()) {
        format!("another scratch after {:?}", ours.answer)
    } else {
        return Ok(ours);
    };
    Err(format!("{what}, with scratch {scratch:?}, of {}", call()))
}

/// Buffers exactly long enough for a text, one byte less, empty and longer.
pub fn rooms_around(length: u64, longer: usize) -> Vec<usize> {
    if length > LONGEST {
        return SHORT_ROOMS.to_vec();
    }
    let fitting = length as usize;
    vec![fitting, fitting - 1, 0, fitting + 1 + longer]
}
