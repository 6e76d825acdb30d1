//! What program `script` writes for its standard input.

use crate::book::{number_at, NUMBER_SIZE};
use crate::book_test::SCRATCH_SIZE;
use crate::image::{fresh_image, IMAGE_SIZE};
use crate::session::{ask, move_to, reply, Replied, UNSAT};

/// The longest input that is read, and the text buffer's size.
pub const INPUT_MOST: usize = 65_536;
pub const TEXT_SIZE: usize = 65_536;
/// Call kinds.
pub const MOVE: u32 = 1;
pub const ASK: u32 = 2;
/// Bytes of a call: kind, node, term.
pub const CALL_SIZE: usize = 3 * NUMBER_SIZE;
/// The term that a move carries.
const NO_TERM_OF_MOVE: u32 = 0;

const STOPPED: &[u8] = b"; stopped\n";

pub fn script(input: &[u8]) -> Vec<u8> {
    let Some((book, calls)) = split(input) else {
        return STOPPED.to_vec();
    };
    let mut desk = Desk {
        book,
        image: fresh_image(),
        text: vec![0; TEXT_SIZE],
        output: Vec::new(),
    };
    for call in calls.chunks(CALL_SIZE) {
        if desk.call(call).is_none() {
            desk.output.extend_from_slice(STOPPED);
            break;
        }
    }
    desk.output
}

/// The book and the calls' bytes; None for an input too long or a book cut
/// short.
fn split(input: &[u8]) -> Option<(&[u8], &[u8])> {
    if input.len() > INPUT_MOST || input.len() < NUMBER_SIZE {
        return None;
    }
    let (length, rest) = input.split_at(NUMBER_SIZE);
    rest.split_at_checked(number_at(length, 0) as usize)
}

struct Desk<'b> {
    book: &'b [u8],
    image: [u8; IMAGE_SIZE],
    text: Vec<u8>,
    output: Vec<u8>,
}

impl Desk<'_> {
    /// One call; None for a call of a shape that stops the program.
    fn call(&mut self, call: &[u8]) -> Option<()> {
        if call.len() < CALL_SIZE {
            return None;
        }
        let [kind, node, term] = std::array::from_fn(|field| number_at(call, field * NUMBER_SIZE));
        let answer = match kind {
            MOVE if term == NO_TERM_OF_MOVE => self.move_to(node),
            ASK => self.ask_and_reply(node, term),
            _ => return None,
        };
        if let Err(number) = answer {
            let line = format!("; refused {number}\n");
            self.output.extend_from_slice(line.as_bytes());
        }
        Some(())
    }

    fn move_to(&mut self, node: u32) -> Result<(), u32> {
        let mut scratch = [0; SCRATCH_SIZE];
        let (image, text) = (&mut self.image, &mut self.text);
        let length = move_to(self.book, &mut scratch, image, node, text)?;
        self.output.extend_from_slice(&self.text[..length]);
        Ok(())
    }

    /// The reply has the whole text buffer again, and no reason.
    fn ask_and_reply(&mut self, node: u32, term: u32) -> Result<(), u32> {
        let mut scratch = [0; SCRATCH_SIZE];
        let (image, text) = (&mut self.image, &mut self.text);
        let length = ask(self.book, &mut scratch, image, node, term, text)?;
        self.output.extend_from_slice(&self.text[..length]);
        let (image, text) = (&mut self.image, &mut self.text);
        let replied = reply(self.book, &mut scratch, image, false, UNSAT, text, &mut [])?;
        let Replied::Proved { text: length } = replied else {
            unreachable!("unsat proves the goal");
        };
        self.output.extend_from_slice(&self.text[..length]);
        Ok(())
    }
}
