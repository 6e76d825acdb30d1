//! A host for tests: it keeps the book and the session's image, and holds
//! every call to what document 01 says of buffers, session and scratch.

use leskofar_reference::book_test::SCRATCH_SIZE;
use leskofar_reference::maker::Maker;
use leskofar_reference::{ask, fresh_image, model, move_to, reply, Replied};

/// What buffers hold before a call.
const UNTOUCHED: u8 = 0xA5;
const BUFFER_SIZE: usize = 1 << 16;

pub struct Desk {
    pub book: Vec<u8>,
    pub image: Vec<u8>,
    pub text_size: usize,
    pub reason_size: usize,
    pub scratch_size: usize,
}

/// A reply's or model's answer with its texts.
#[derive(Clone, Debug, PartialEq, Eq)]
pub enum Answer {
    Proved { text: String },
    Unproved { text: String, reason: Vec<u8> },
    ModelOwed { text: String },
}

impl Desk {
    pub fn new(maker: &Maker) -> Desk {
        Desk::with_book(maker.book())
    }

    pub fn with_book(book: Vec<u8>) -> Desk {
        Desk {
            book,
            image: fresh_image().to_vec(),
            text_size: BUFFER_SIZE,
            reason_size: BUFFER_SIZE,
            scratch_size: SCRATCH_SIZE,
        }
    }

    pub fn move_to(&mut self, node: u32) -> Result<String, u32> {
        self.one_text(|book, scratch, image, text| move_to(book, scratch, image, node, text))
    }

    pub fn ask(&mut self, node: u32, term: u32) -> Result<String, u32> {
        self.one_text(|book, scratch, image, text| ask(book, scratch, image, node, term, text))
    }

    pub fn reply(&mut self, failed: bool, bytes: &[u8]) -> Result<Answer, u32> {
        self.two_texts(|book, scratch, image, text, reason| {
            reply(book, scratch, image, failed, bytes, text, reason)
        })
    }

    pub fn model(&mut self, bytes: &[u8], came: Option<&[u8]>) -> Result<Answer, u32> {
        self.two_texts(|book, scratch, image, text, reason| {
            model(book, scratch, image, bytes, came, text, reason)
        })
    }

    fn one_text(
        &mut self,
        call: impl FnOnce(&[u8], &mut [u8], &mut [u8], &mut [u8]) -> Result<usize, u32>,
    ) -> Result<String, u32> {
        let before = self.image.clone();
        let mut text = vec![UNTOUCHED; self.text_size];
        let mut scratch = vec![UNTOUCHED; self.scratch_size];
        let answer = call(&self.book, &mut scratch, &mut self.image, &mut text);
        self.check_left(&before, &scratch, answer.is_err());
        let written = *answer.as_ref().unwrap_or(&0);
        answer
            .map(|_| string(&used(&text, written)))
            .inspect_err(|_| assert_eq!(used(&text, 0), []))
    }

    fn two_texts(
        &mut self,
        call: impl FnOnce(&[u8], &mut [u8], &mut [u8], &mut [u8], &mut [u8]) -> Result<Replied, u32>,
    ) -> Result<Answer, u32> {
        let before = self.image.clone();
        let mut text = vec![UNTOUCHED; self.text_size];
        let mut reason = vec![UNTOUCHED; self.reason_size];
        let mut scratch = vec![UNTOUCHED; self.scratch_size];
        let book = &self.book;
        let answer = call(book, &mut scratch, &mut self.image, &mut text, &mut reason);
        self.check_left(&before, &scratch, answer.is_err());
        let (text_written, reason_written) = match answer {
            Err(_) => (0, 0),
            Ok(Replied::Proved { text } | Replied::ModelOwed { text }) => (text, 0),
            Ok(Replied::Unproved { text, reason }) => (text, reason),
        };
        let text = string(&used(&text, text_written));
        let reason = used(&reason, reason_written);
        answer.map(|replied| match replied {
            Replied::Proved { .. } => Answer::Proved { text },
            Replied::ModelOwed { .. } => Answer::ModelOwed { text },
            Replied::Unproved { .. } => Answer::Unproved { text, reason },
        })
    }

    /// The scratch is zero, or untouched under 1; a refusal leaves the session.
    fn check_left(&self, before: &[u8], scratch: &[u8], refused: bool) {
        let left = if scratch.len() < SCRATCH_SIZE {
            UNTOUCHED
        } else {
            0
        };
        assert!(scratch.iter().all(|byte| *byte == left));
        assert!(!refused || self.image == before);
    }
}

/// The written part; nothing behind it is touched.
pub fn used(buffer: &[u8], written: usize) -> Vec<u8> {
    assert!(buffer[written..].iter().all(|byte| *byte == UNTOUCHED));
    buffer[..written].to_vec()
}

/// A buffer that no call has touched.
pub fn buffer(size: usize) -> Vec<u8> {
    vec![UNTOUCHED; size]
}

/// Letters and commands are ASCII.
pub fn string(bytes: &[u8]) -> String {
    String::from_utf8(bytes.to_vec()).expect("text is ASCII")
}
