//! An audit, made on the library and on the reference: the answer, every byte
//! of the scratch and behind it, and that book, questions and script stay as
//! they are.

use crate::audit_library::{self as library, Audited};
use crate::buffers::Fenced;
use crate::scratch_bytes::{are_left, LEAST};
use crate::tally::Met;
use leskofar_reference::audit::{Verdict, QUESTION_SIZE};
use leskofar_reference::book_test::SCRATCH_SIZE;
use leskofar_reference::commands::LINE_END;
use leskofar_reference::refusal::COUNT;
use std::fmt::{Display, Formatter};
use std::hint::black_box;

/// How a call ends.
#[derive(Clone, Copy, Debug, PartialEq, Eq, PartialOrd, Ord)]
pub enum Outcome {
    Accepted,
    DiffersAtOnce,
    DiffersLater,
    /// 3 of a book that is not refused 3 by itself.
    LongScript,
    Refused(u32),
}

/// How a call ends that is not refused.
pub const VERDICTS: [Outcome; 3] = [
    Outcome::Accepted,
    Outcome::DiffersAtOnce,
    Outcome::DiffersLater,
];
/// How it ends otherwise.
pub const REFUSALS: [Outcome; 13] = [
    Outcome::Refused(1),
    Outcome::Refused(2),
    Outcome::Refused(3),
    Outcome::LongScript,
    Outcome::Refused(4),
    Outcome::Refused(5),
    Outcome::Refused(6),
    Outcome::Refused(28),
    Outcome::Refused(7),
    Outcome::Refused(9),
    Outcome::Refused(25),
    Outcome::Refused(26),
    Outcome::Refused(27),
];

impl Display for Outcome {
    fn fmt(&self, f: &mut Formatter) -> std::fmt::Result {
        match self {
            Outcome::Accepted => f.write_str("accepted"),
            Outcome::DiffersAtOnce => f.write_str("differs at 1"),
            Outcome::DiffersLater => f.write_str("differs later"),
            Outcome::LongScript => f.write_str("refused 3 for the script"),
            Outcome::Refused(number) => write!(f, "refused {number}"),
        }
    }
}

/// An answer, as the library tells it.
pub fn told(answer: Result<Verdict, u32>) -> Audited {
    match answer {
        Ok(Verdict::Agrees) => Audited::default(),
        Ok(Verdict::DiffersAt(check)) => Audited {
            refusal: 0,
            differs: check as u32,
        },
        Err(refusal) => Audited {
            refusal,
            differs: 0,
        },
    }
}

/// Bytes that are only read, with some behind them that would make another
/// call of it.
#[derive(PartialEq)]
struct Handed {
    bytes: Vec<u8>,
    length: usize,
}

impl Handed {
    fn new(content: &[u8], behind: &[u8]) -> Handed {
        Handed {
            bytes: [content, behind].concat(),
            length: content.len(),
        }
    }

    fn content(&self) -> &[u8] {
        &self.bytes[..self.length]
    }
}

/// Behind questions: what makes a whole one of one that is cut.
const QUESTION_BEHIND: [u8; QUESTION_SIZE] = [0; QUESTION_SIZE];
/// Behind a script: what ends a line that has no end.
const LINE_BEHIND: [u8; 1] = [LINE_END];
/// Behind a book: what makes a longer one.
const BOOK_BEHIND: [u8; 28] = [0; 28];

/// A call but for its scratch.
#[derive(Clone, Copy)]
pub struct AuditCall<'b> {
    pub book: &'b [u8],
    pub questions: &'b [u8],
    pub script: &'b [u8],
}

impl AuditCall<'_> {
    pub fn compare(self, scratch: &[u8], met: &mut Met<Outcome>) -> Result<Audited, String> {
        let [mut theirs, mut ours] = [scratch; 2].map(Fenced::holding);
        let answer =
            leskofar_reference::audit(self.book, theirs.room(), self.questions, self.script);
        let expected = told(answer);
        let handed = self.handed();
        let [book, questions, script] = handed.each_ref().map(Handed::content);
        let audited = library::audit(book, ours.room(), questions, script);
        met.add(self.outcome(expected));
        let what = if audited != expected {
            format!("{audited:?}, expected {expected:?}")
        } else if !are_left([&ours, &theirs], scratch, audited.refusal) {
            format!("another scratch after {audited:?}")
        } else if *black_box(&handed) != self.handed() {
            format!("another book, questions or script after {audited:?}")
        } else {
            return Ok(audited);
        };
        Err(format!("{what}, with scratch {scratch:?}, {}", self.said()))
    }

    /// Book, questions and script, as the library gets them.
    fn handed(self) -> [Handed; 3] {
        [
            Handed::new(self.book, &BOOK_BEHIND),
            Handed::new(self.questions, &QUESTION_BEHIND),
            Handed::new(self.script, &LINE_BEHIND),
        ]
    }

    /// With the least scratch.
    pub fn compare_plainly(self, met: &mut Met<Outcome>) -> Result<Audited, String> {
        self.compare(&LEAST, met)
    }

    /// The same, where the answer is known beforehand.
    pub fn expect(
        self,
        answer: Result<Verdict, u32>,
        met: &mut Met<Outcome>,
    ) -> Result<(), String> {
        let audited = self.compare_plainly(met)?;
        self.known(audited, audited == told(answer), &format!("{answer:?}"))
    }

    /// The same, where it may be refused for one of some numbers too.
    pub fn expect_or(
        self,
        verdict: Verdict,
        refusals: &[u32],
        met: &mut Met<Outcome>,
    ) -> Result<Audited, String> {
        let audited = self.compare_plainly(met)?;
        let is_known = audited == told(Ok(verdict)) || refusals.contains(&audited.refusal);
        let known = format!("{verdict:?} or one of {refusals:?}");
        self.known(audited, is_known, &known)?;
        Ok(audited)
    }

    fn known(self, audited: Audited, is_known: bool, known: &str) -> Result<(), String> {
        if is_known {
            Ok(())
        } else {
            Err(format!("{audited:?}, known {known}, {}", self.said()))
        }
    }

    fn outcome(self, answer: Audited) -> Outcome {
        match answer {
            Audited { refusal: COUNT, .. } if self.book_test() != Err(COUNT) => Outcome::LongScript,
            Audited { refusal: 1.., .. } => Outcome::Refused(answer.refusal),
            Audited { differs: 0, .. } => Outcome::Accepted,
            Audited { differs: 1, .. } => Outcome::DiffersAtOnce,
            _ => Outcome::DiffersLater,
        }
    }

    fn book_test(self) -> Result<(), u32> {
        leskofar_reference::book_test(self.book, &mut [0; SCRATCH_SIZE])
    }

    fn said(self) -> String {
        let script = self.script.escape_ascii();
        let [book, questions] = [self.book, self.questions];
        format!("of {script} for {questions:?} on {book:?}")
    }
}
