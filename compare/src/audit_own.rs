//! Own scripts: the text of a list of random calls, with the questions that were
//! accepted.

use crate::audit_books::audit_book;
use crate::audit_call::AuditCall;
use crate::calls::Call;
use crate::random_calls::random_call;
use crate::session_library::{Answer, Buffers, PROVED, UNPROVED};
use crate::tally::Met;
use crate::writer_random::Stock;
use leskofar_reference::audit_samples::{bytes, Question};
use leskofar_reference::book::Book;
use leskofar_reference::book_test::SCRATCH_SIZE;
use leskofar_reference::fresh_image;
use leskofar_reference::image::{Owed, IMAGE_SIZE};
use leskofar_reference::maker::Maker;
use leskofar_reference::random::{Random, AT_TIMES, RARELY};
use std::collections::BTreeSet;

/// The most calls of a list.
const CALLS: usize = 12;
/// Room for most texts, and for few of them.
const ROOM: usize = 1 << 17;
const SCANT: usize = 60;

const LEFT_OPEN: &str = "a question left open";
const MODEL_OWED: &str = "a model owed at the end";
const SEVERAL: &str = "several questions";
const NO_QUESTION: &str = "no question";
const MOVED: &str = "a move that sends text";
const CHECK_FAILED: &str = "a failed check";
const MODEL_TAKEN: &str = "a model taken";
const REFUSED: &str = "a refused call between questions";
const GROWN: &str = "a book grown between questions";
const NEW_ASKED: &str = "a question about what has grown";
/// What a list has in it.
pub const OWN_SHAPES: [&str; 10] = [
    LEFT_OPEN,
    MODEL_OWED,
    SEVERAL,
    NO_QUESTION,
    MOVED,
    CHECK_FAILED,
    MODEL_TAKEN,
    REFUSED,
    GROWN,
    NEW_ASKED,
];

/// A list of calls from a fresh session, and what it sent.
pub struct Own {
    pub maker: Maker,
    pub book: Vec<u8>,
    pub questions: Vec<Question>,
    pub script: Vec<u8>,
    image: [u8; IMAGE_SIZE],
    owed: Owed,
    /// What stands before a question, and what stands behind the last one, which
    /// no check-sat sees.
    before: BTreeSet<&'static str>,
    behind: BTreeSet<&'static str>,
    /// The nodes and terms that there were at the first question.
    at_first: Option<[usize; 2]>,
}

impl Own {
    /// Random calls on a book, which grows at times.
    pub fn new(random: &mut Random) -> Own {
        let maker = audit_book(random);
        let mut own = Own {
            book: maker.book(),
            maker,
            questions: Vec::new(),
            script: Vec::new(),
            image: fresh_image(),
            owed: Owed::Nothing,
            before: BTreeSet::new(),
            behind: BTreeSet::new(),
            at_first: None,
        };
        let grows = random.one_in(AT_TIMES);
        for _ in 0..random.up_to(CALLS) {
            if grows && random.one_in(AT_TIMES) {
                own.grow(random);
            }
            own.step(random);
        }
        own
    }

    /// The audit of its text.
    pub fn with<'b>(&'b self, questions: &'b [u8]) -> AuditCall<'b> {
        AuditCall {
            book: &self.book,
            questions,
            script: &self.script,
        }
    }

    pub fn question_bytes(&self) -> Vec<u8> {
        bytes(&self.questions)
    }

    /// Tells what it has in it.
    pub fn visit(&self, shapes: &mut Met<&'static str>) {
        let whole = [
            (self.owed == Owed::Reply, LEFT_OPEN),
            (self.owed == Owed::Model, MODEL_OWED),
            (self.questions.len() > 1, SEVERAL),
            (self.questions.is_empty(), NO_QUESTION),
        ];
        let whole = whole.iter().filter(|(is_met, _)| *is_met);
        for shape in whole.map(|(_, shape)| shape).chain(&self.before) {
            shapes.add(shape);
        }
    }

    fn grow(&mut self, random: &mut Random) {
        let growth = Stock::of(&self.maker).growth(random);
        let Some(book) = growth.new_book(&self.book) else {
            return;
        };
        self.maker = Maker::of(Book::new(&book).expect("a grown book is laid out"));
        self.book = book;
        self.stands_between(GROWN);
    }

    /// A call, whose turn it mostly is, with room for its texts mostly.
    fn step(&mut self, random: &mut Random) {
        let call = random_call(random, &self.maker, self.owed);
        let room = if random.one_in(RARELY) { SCANT } else { ROOM };
        let mut text = vec![0; room];
        let answer = call.on_library(
            &self.book,
            &mut Buffers {
                scratch: &mut [0; SCRATCH_SIZE],
                image: &mut self.image,
                text: &mut text,
                reason: &mut vec![0; room],
            },
        );
        if answer.refusal != 0 {
            self.stands_between(REFUSED);
            return;
        }
        self.script.extend(&text[..answer.text as usize]);
        self.take(&call, answer);
    }

    /// What an accepted call changes.
    fn take(&mut self, call: &Call, answer: Answer) {
        match call {
            Call::Move { .. } if answer.text > 0 => {
                self.behind.insert(MOVED);
            }
            Call::Move { .. } => {}
            Call::Ask { node, goal } => self.take_question([*node, *goal]),
            Call::Reply { .. } if answer.result == PROVED => self.owed = Owed::Nothing,
            Call::Reply { .. } if answer.result == UNPROVED => self.settle(CHECK_FAILED),
            Call::Reply { .. } => self.owed = Owed::Model,
            Call::Model { has_model: 0, .. } => self.owed = Owed::Nothing,
            Call::Model { .. } => self.settle(MODEL_TAKEN),
        }
    }

    fn settle(&mut self, shape: &'static str) {
        self.owed = Owed::Nothing;
        self.behind.insert(shape);
    }

    fn take_question(&mut self, question: Question) {
        let there = [self.maker.contexts.len(), self.maker.terms.len()];
        let [nodes, terms] = *self.at_first.get_or_insert(there);
        let [node, goal] = question.map(|number| number as usize);
        if node > nodes || goal >= terms {
            self.before.insert(NEW_ASKED);
        }
        self.before.append(&mut self.behind);
        self.questions.push(question);
        self.owed = Owed::Reply;
    }

    /// A shape behind a question, which counts once another is asked.
    fn stands_between(&mut self, shape: &'static str) {
        if !self.questions.is_empty() {
            self.behind.insert(shape);
        }
    }
}
