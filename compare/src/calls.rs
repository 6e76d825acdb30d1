//! A session call, made on the library and on the reference: the answer, and
//! every byte of image, text, reason and scratch and behind them.

use crate::buffers::Fenced;
use crate::scratch_bytes::are_left;
use crate::session_library::{self as library, Answer, Buffers, PROVED, UNPROVED, WRITTEN};
use leskofar_reference::book_test::SCRATCH_SIZE;
use leskofar_reference::session::{self as reference, Replied};

/// Whether the check came to its end.
pub const OK: u32 = 1;
pub const FAILED: u32 = 0;

/// A flag is any number, 0 or not 0.
#[derive(Clone, Debug)]
pub enum Call {
    Move {
        node: u32,
    },
    Ask {
        node: u32,
        goal: u32,
    },
    Reply {
        ok: u32,
        reply: Vec<u8>,
    },
    Model {
        reply: Vec<u8>,
        has_model: u32,
        model: Vec<u8>,
    },
}

/// What a call is given: its book and image, what the scratch holds, and the
/// lengths of its buffers.
pub struct Given<'b> {
    pub book: &'b [u8],
    pub image: &'b [u8],
    pub scratch: &'b [u8],
    pub text: usize,
    pub reason: usize,
}

/// What a call leaves.
#[derive(PartialEq)]
pub struct Left {
    pub answer: Answer,
    image: Fenced,
    text: Fenced,
    reason: Fenced,
    scratch: Fenced,
}

impl Left {
    pub fn accepted(&self) -> bool {
        self.answer.refusal == 0
    }

    pub fn image(&self) -> &[u8] {
        self.image.content()
    }

    pub fn text(&self) -> &[u8] {
        &self.text.content()[..self.answer.text as usize]
    }

    pub fn reason(&self) -> &[u8] {
        &self.reason.content()[..self.answer.reason as usize]
    }
}

impl Call {
    pub fn reply(ok: u32, reply: &[u8]) -> Call {
        let reply = reply.to_vec();
        Call::Reply { ok, reply }
    }

    pub fn model(reply: &[u8], model: Option<&[u8]>) -> Call {
        Call::Model {
            reply: reply.to_vec(),
            has_model: u32::from(model.is_some()),
            model: model.unwrap_or_default().to_vec(),
        }
    }

    pub fn on_library(&self, book: &[u8], b: &mut Buffers) -> Answer {
        match self {
            Call::Move { node } => library::move_to(book, b, *node),
            Call::Ask { node, goal } => library::ask(book, b, *node, *goal),
            Call::Reply { ok, reply } => library::reply(book, b, *ok, reply),
            Call::Model {
                reply,
                has_model,
                model,
            } => library::model(book, b, reply, *has_model, model),
        }
    }

    fn on_reference(&self, book: &[u8], b: &mut Buffers) -> Answer {
        match self {
            Call::Move { node } => {
                written(reference::move_to(book, b.scratch, b.image, *node, b.text))
            }
            Call::Ask { node, goal } => written(reference::ask(
                book, b.scratch, b.image, *node, *goal, b.text,
            )),
            Call::Reply { ok, reply } => replied(reference::reply(
                book,
                b.scratch,
                b.image,
                *ok == 0,
                reply,
                b.text,
                b.reason,
            )),
            Call::Model {
                reply,
                has_model,
                model,
            } => replied(reference::model(
                book,
                b.scratch,
                b.image,
                reply,
                (*has_model != 0).then_some(model),
                b.text,
                b.reason,
            )),
        }
    }

    /// Makes the call on both. The first difference is an error.
    pub fn compare(&self, given: &Given) -> Result<Left, String> {
        let theirs = left(given, |b| self.on_reference(given.book, b));
        let ours = left(given, |b| self.on_library(given.book, b));
        let what = if ours.answer != theirs.answer {
            format!("{:?}, expected {:?}", ours.answer, theirs.answer)
        } else if let Some(part) = other_part(&ours, &theirs, given.scratch) {
            format!("another {part} after {:?}", ours.answer)
        } else {
            return Ok(ours);
        };
        Err(format!(
            "{what}, of {self:?} with scratch {:?}, text {}, reason {}, image {:?}, book {:?}",
            given.scratch, given.text, given.reason, given.image, given.book
        ))
    }
}

fn left(given: &Given, call: impl FnOnce(&mut Buffers) -> Answer) -> Left {
    let mut image = Fenced::holding(given.image);
    let mut scratch = Fenced::holding(given.scratch);
    let [mut text, mut reason] = [given.text, given.reason].map(Fenced::new);
    let answer = call(&mut Buffers {
        scratch: scratch.room(),
        image: image.room(),
        text: text.room(),
        reason: reason.room(),
    });
    Left {
        answer,
        image,
        text,
        reason,
        scratch,
    }
}

/// What differs, after the same answer.
fn other_part(ours: &Left, theirs: &Left, scratch: &[u8]) -> Option<&'static str> {
    let scratches = [&ours.scratch, &theirs.scratch];
    let differing = [
        (ours.image != theirs.image, "image"),
        (ours.text != theirs.text, "text"),
        (ours.reason != theirs.reason, "reason"),
        (
            !are_left(scratches, scratch, ours.answer.refusal),
            "scratch",
        ),
    ];
    let first = differing.into_iter().find(|(differs, _)| *differs);
    first.map(|(_, part)| part)
}

fn refused(refusal: u32) -> Answer {
    Answer {
        refusal,
        ..Answer::default()
    }
}

/// The reference's answers, as the library tells them.
fn written(answer: Result<usize, u32>) -> Answer {
    answer.map_or_else(refused, |text| accepted(WRITTEN, text, 0))
}

fn replied(answer: Result<Replied, u32>) -> Answer {
    answer.map_or_else(refused, |replied| match replied {
        Replied::Proved { text } => accepted(PROVED, text, 0),
        Replied::Unproved { text, reason } => accepted(UNPROVED, text, reason),
        Replied::ModelOwed { text } => accepted(WRITTEN, text, 0),
    })
}

fn accepted(result: u32, text: usize, reason: usize) -> Answer {
    Answer {
        refusal: 0,
        result,
        text: text as u64,
        reason: reason as u64,
    }
}

/// Buffers with room for every text, to measure in.
pub struct Measure {
    text: Vec<u8>,
    reason: Vec<u8>,
}

impl Measure {
    /// More than any text or reason here has.
    const ROOM: usize = 1 << 24;

    pub fn new() -> Measure {
        let [text, reason] = [(); 2].map(|()| vec![0; Measure::ROOM]);
        Measure { text, reason }
    }

    /// The lengths of text and reason, as the reference has them; 0 where the
    /// call is refused for more than want of room.
    pub fn lengths(&mut self, call: &Call, book: &[u8], image: &[u8]) -> (usize, usize) {
        let answer = call.on_reference(
            book,
            &mut Buffers {
                scratch: &mut [0; SCRATCH_SIZE],
                image: &mut image.to_vec(),
                text: &mut self.text,
                reason: &mut self.reason,
            },
        );
        (answer.text as usize, answer.reason as usize)
    }
}
