//! A turn of an image into the other kind, made on the library and on the
//! reference: the answer, every byte of both images and of the scratch and
//! behind them, and that book and image received stay as they are.

use crate::buffers::Fenced;
use crate::scratch_bytes::{are_left, LEAST};
use crate::tally::Met;
use crate::turns_library as library;
use leskofar_reference::image::Kind;
use leskofar_reference::refusal::{SESSION, TOO_DEEP_FOR_NARROW};
use leskofar_reference::turns::{self as reference, NARROW_DEPTH};
use std::hint::black_box;

#[derive(Clone, Copy, Debug, PartialEq, Eq)]
pub enum Turn {
    Widen,
    Narrow,
}

pub const TURNS: [Turn; 2] = [Turn::Widen, Turn::Narrow];

/// What a turn is given: its book, the image received, what the scratch holds,
/// and the length of the other image's buffer.
#[derive(Clone, Copy, Debug)]
pub struct Given<'b> {
    pub book: &'b [u8],
    pub image: &'b [u8],
    pub scratch: &'b [u8],
    pub room: usize,
}

/// What a turn leaves.
struct Left {
    answer: u32,
    image: Fenced,
    scratch: Fenced,
}

/// What comes of a turn: the other image, or the number of the refusal.
#[derive(Clone, Debug, PartialEq, Eq)]
pub enum Turned {
    Into(Vec<u8>),
    Refused(u32),
}

impl Turned {
    /// 0 where it is accepted.
    pub fn refusal(&self) -> u32 {
        match self {
            Turned::Into(_) => 0,
            Turned::Refused(refusal) => *refusal,
        }
    }
}

/// How often each answer was met, by turns.
#[derive(Default)]
pub struct TurnsMet([Met; TURNS.len()]);

impl TurnsMet {
    /// Fails if one of the answers was never met by its turn.
    pub fn all_of(&self, widen: &[u32], narrow: &[u32]) -> Result<String, String> {
        let [widened, narrowed] = &self.0;
        let widened = widened
            .all_of(widen)
            .map_err(|what| format!("widen: {what}"))?;
        let narrowed = narrowed
            .all_of(narrow)
            .map_err(|what| format!("narrow: {what}"))?;
        Ok(format!("widen: {widened}, narrow: {narrowed}"))
    }

    /// Fails too if another was met.
    pub fn only(&self, widen: &[u32], narrow: &[u32]) -> Result<String, String> {
        let [widened, narrowed] = &self.0;
        widened
            .only(widen)
            .map_err(|what| format!("widen: {what}"))?;
        narrowed
            .only(narrow)
            .map_err(|what| format!("narrow: {what}"))?;
        self.all_of(widen, narrow)
    }
}

impl Turn {
    /// The kind of the image received.
    pub fn received(self) -> Kind {
        match self {
            Turn::Widen => Kind::Narrow,
            Turn::Narrow => Kind::Wide,
        }
    }

    /// The kind of the image written.
    pub fn written(self) -> Kind {
        match self {
            Turn::Widen => Kind::Wide,
            Turn::Narrow => Kind::Narrow,
        }
    }

    pub fn on_library(self, book: &[u8], scratch: &mut [u8], from: &[u8], to: &mut [u8]) -> u32 {
        match self {
            Turn::Widen => library::widen(book, scratch, from, to),
            Turn::Narrow => library::narrow(book, scratch, from, to),
        }
    }

    pub fn on_reference(self, book: &[u8], scratch: &mut [u8], from: &[u8], to: &mut [u8]) -> u32 {
        let turned = match self {
            Turn::Widen => reference::widen(book, scratch, from, to),
            Turn::Narrow => reference::narrow(book, scratch, from, to),
        };
        turned.err().unwrap_or(0)
    }

    /// Makes the turn on both. The first difference is an error.
    pub fn compare(self, given: &Given, met: &mut TurnsMet) -> Result<Turned, String> {
        let [book, image] = [given.book, given.image].map(Fenced::holding);
        let theirs = left(given, |scratch, to| {
            self.on_reference(given.book, scratch, given.image, to)
        });
        let ours = left(given, |scratch, to| {
            self.on_library(book.content(), scratch, image.content(), to)
        });
        met.0[self as usize].add(theirs.answer);
        let stayed = *black_box(&book) == Fenced::holding(given.book)
            && *black_box(&image) == Fenced::holding(given.image);
        let what = if ours.answer != theirs.answer {
            format!("{}, expected {}", ours.answer, theirs.answer)
        } else if ours.image != theirs.image {
            format!("another image after {}", ours.answer)
        } else if !are_left([&ours.scratch, &theirs.scratch], given.scratch, ours.answer) {
            format!("another scratch after {}", ours.answer)
        } else if !stayed {
            format!("another book or image received after {}", ours.answer)
        } else {
            return Ok(match ours.answer {
                0 => Turned::Into(ours.image.content().to_vec()),
                refusal => Turned::Refused(refusal),
            });
        };
        Err(format!("{what}, of {self:?} with {given:?}"))
    }

    /// With the least scratch and a buffer of the right length.
    pub fn compare_on(
        self,
        book: &[u8],
        image: &[u8],
        met: &mut TurnsMet,
    ) -> Result<Turned, String> {
        let given = Given {
            book,
            image,
            scratch: &LEAST,
            room: self.written().image_size(),
        };
        self.compare(&given, met)
    }

    /// The same, where it is known what comes of it.
    pub fn expect(
        self,
        book: &[u8],
        image: &[u8],
        known: Turned,
        met: &mut TurnsMet,
    ) -> Result<(), String> {
        let turned = self.compare_on(book, image, met)?;
        if turned == known {
            Ok(())
        } else {
            Err(format!(
                "{turned:?}, known {known:?}, of {self:?} of {image:?} on {book:?}"
            ))
        }
    }
}

/// Both turns of a session, by its images of both kinds and the depth of its
/// node, which says what comes of them.
pub fn expect_both(
    book: &[u8],
    depth: usize,
    narrow: &[u8],
    wide: &[u8],
    met: &mut TurnsMet,
) -> Result<(), String> {
    let fits = depth <= NARROW_DEPTH;
    let if_fits = |image: &[u8], refusal| {
        if fits {
            Turned::Into(image.to_vec())
        } else {
            Turned::Refused(refusal)
        }
    };
    let narrowed = if_fits(narrow, TOO_DEEP_FOR_NARROW);
    Turn::Narrow.expect(book, wide, narrowed, met)?;
    Turn::Widen.expect(book, narrow, if_fits(wide, SESSION), met)
}

fn left(given: &Given, turn: impl FnOnce(&mut [u8], &mut [u8]) -> u32) -> Left {
    let mut scratch = Fenced::holding(given.scratch);
    let mut image = Fenced::new(given.room);
    let answer = turn(scratch.room(), image.room());
    Left {
        answer,
        image,
        scratch,
    }
}
