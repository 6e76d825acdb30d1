//! Demand 3 on a list of calls: what is live at each level, and the engine of
//! the Dafny bodies beside the session.

use crate::desk::{Answer, Desk};
use crate::turns::assert_turns;
use leskofar_reference::engine::REngine;
use leskofar_reference::image::Owed;
use leskofar_reference::program::Program;
use leskofar_reference::random::{Random, AT_TIMES, OFTEN, RARELY};
use leskofar_reference::refusal::{
    MISSING_AXIOM, NOT_IN_BOOK, NO_MODEL_OWED, NO_REPLY_OWED, REPLY_UNSAT, SOMETHING_OWED, TOO_LONG,
};
use leskofar_reference::stack::{expected_levels, Level, Reader};
use std::collections::BTreeMap;

/// Buffers that are at times too short.
const NARROW_TEXT: usize = 100;
const NARROW_REASON: usize = 2;
const PUSH: &str = "(push 1)\n";
const POPS: &str = "(pop 1)\n(pop 1)\n";
const GET_MODEL: &str = "(get-model)\n";
/// The image's head: kind, node, goal, owed.
const IMAGE_HEAD: usize = 16;
const IMAGE_KIND: u32 = 2;
const REPLIES: [&[u8]; 5] = [b"unsat", b"unsat", b"sat", b"unknown", b"\xFFunsat"];

/// A list of calls so far. What is present and owed comes from the accepted
/// calls alone, never from the session's image.
pub struct Run<'p, 'b> {
    program: &'p Program<'b>,
    desk: Desk,
    engine: REngine<'p, 'b>,
    reader: Reader,
    node: u32,
    goal: Option<u32>,
    owed: Owed,
    /// How often each answer came; 0 for accepted.
    pub answers: BTreeMap<u32, usize>,
    /// How often the book grew while a reply, and while a model was owed.
    pub grew_while_owed: [usize; 2],
}

impl<'p, 'b> Run<'p, 'b> {
    /// A list without calls; the program is the book's.
    pub fn new(book: &[u8], program: &'p Program<'b>) -> Run<'p, 'b> {
        Run {
            program,
            desk: Desk::with_book(book.to_vec()),
            engine: REngine::new(program),
            reader: Reader::default(),
            node: 0,
            goal: None,
            owed: Owed::Nothing,
            answers: BTreeMap::new(),
            grew_while_owed: [0; 2],
        }
    }

    /// The same list, on a book that this one has grown to.
    pub fn go_on(&mut self, book: &[u8], program: &'p Program<'b>) {
        self.program = program;
        self.engine = self.engine.on(program);
        self.desk.book = book.to_vec();
        match self.owed {
            Owed::Nothing => (),
            Owed::Reply => self.grew_while_owed[0] += 1,
            Owed::Model => self.grew_while_owed[1] += 1,
        }
    }

    /// A random call with buffers of this size, or narrow ones.
    pub fn call(&mut self, random: &mut Random, buffers: usize) {
        let is_narrow = random.one_in(RARELY);
        self.desk.text_size = if is_narrow {
            random.below(NARROW_TEXT)
        } else {
            buffers
        };
        let is_narrow = random.one_in(RARELY);
        self.desk.reason_size = if is_narrow { NARROW_REASON } else { buffers };
        let turn = match self.owed {
            _ if random.one_in(RARELY) => random.below(4),
            Owed::Nothing => random.below(2),
            Owed::Reply => 2,
            Owed::Model => 3,
        };
        let refusal = match turn {
            0 => self.travel(random, false),
            1 => self.travel(random, true),
            2 => self.reply(random),
            _ => self.model(random),
        };
        *self.answers.entry(refusal).or_default() += 1;
        let expected = expected_levels(&self.desk.book, self.node, self.goal);
        assert_eq!(Some(self.reader.levels()), expected.as_deref());
        self.compare_with_fresh(&expected.expect("reached"));
        if random.one_in(RARELY) {
            let depth = self.program.depth(self.node as usize);
            assert_turns(&self.desk.book, &self.desk.image, depth);
        }
    }

    /// A move or an ask; the refusal's number, or 0.
    fn travel(&mut self, random: &mut Random, is_ask: bool) -> u32 {
        let beyond = usize::from(random.one_in(RARELY));
        let node = random.up_to(self.program.nodes().len() + beyond) as u32;
        let terms = self.program.terms.len();
        let goal = random.below(terms + beyond.max(usize::from(terms == 0))) as u32;
        let goal = is_ask.then_some(goal);

        let mut tried = self.engine.fork();
        let in_book =
            self.program.has_node(node) && goal.is_none_or(|goal| self.program.has_term(goal));
        let expected = if !in_book {
            Err(NOT_IN_BOOK)
        } else if self.owed != Owed::Nothing {
            Err(SOMETHING_OWED)
        } else {
            match goal {
                None => tried.set_context(node as usize),
                Some(goal) => tried.prove_until_check_sat(node as usize, goal as usize),
            }
            let text = tried.take_sent();
            if tried.missing_axiom() {
                Err(MISSING_AXIOM)
            } else if text.len() > self.desk.text_size {
                Err(TOO_LONG)
            } else {
                Ok(String::from_utf8(text).expect("ASCII"))
            }
        };
        let answer = match goal {
            None => self.desk.move_to(node),
            Some(goal) => self.desk.ask(node, goal),
        };
        assert_eq!(answer, expected);
        let Ok(text) = answer else {
            return answer.unwrap_err();
        };
        assert_eq!(text, self.text_by_the_book(node, goal));
        self.reader.read(text.as_bytes()).expect("never lost");
        self.engine = tried;
        self.node = node;
        self.goal = goal;
        self.owed = goal.map_or(Owed::Nothing, |_| Owed::Reply);
        0
    }

    /// Demand 3's words: d - s pops, then for each node below the deepest
    /// shared one a push and its commands; an ask's two levels behind it.
    fn text_by_the_book(&self, node: u32, goal: Option<u32>) -> String {
        let old = self.program.path(self.node as usize);
        let new = self.program.path(node as usize);
        let is_shared = |at: &usize| *at == 0 || (old.contains(at) && new.contains(at));
        let deepest = (0..=self.program.nodes().len()).filter(is_shared);
        let s = deepest
            .map(|at| self.program.depth(at))
            .max()
            .expect("the root is shared");
        let mut text = "(pop 1)\n".repeat(self.program.depth(self.node as usize) - s);
        let levels = expected_levels(&self.desk.book, node, goal).expect("accepted");
        for level in &levels[1 + s..] {
            text += PUSH;
            for line in level {
                text += std::str::from_utf8(line).expect("ASCII");
                text += "\n";
            }
        }
        if goal.is_some() {
            text += "(check-sat)\n";
        }
        text
    }

    fn reply(&mut self, random: &mut Random) -> u32 {
        let bytes = random.pick(&REPLIES);
        let failed = random.one_in(AT_TIMES);
        let ends = failed || bytes == b"unsat";
        let text = if ends { POPS } else { GET_MODEL };
        let too_long = self.desk.text_size < text.len();
        let expected = if self.owed != Owed::Reply {
            Err(NO_REPLY_OWED)
        } else if too_long || (failed && bytes.len() > self.desk.reason_size) {
            Err(TOO_LONG)
        } else if failed {
            Ok(unproved(bytes))
        } else if ends {
            Ok(Answer::Proved { text: text.into() })
        } else {
            Ok(Answer::ModelOwed { text: text.into() })
        };
        let answer = self.desk.reply(failed, bytes);
        assert_eq!(answer, expected);
        self.settle(answer)
    }

    fn model(&mut self, random: &mut Random) -> u32 {
        let bytes = random.pick(&REPLIES);
        let came = random.one_in(OFTEN).then_some(&b"m\n(push 1)"[..]);
        let reason = match came {
            None => bytes.to_vec(),
            Some(model) => [bytes, b"\n", model].concat(),
        };
        let too_long = self.desk.text_size < POPS.len() || reason.len() > self.desk.reason_size;
        let expected = if self.owed != Owed::Model {
            Err(NO_MODEL_OWED)
        } else if bytes == b"unsat" {
            Err(REPLY_UNSAT)
        } else if too_long {
            Err(TOO_LONG)
        } else {
            Ok(unproved(&reason))
        };
        let answer = self.desk.model(bytes, came);
        assert_eq!(answer, expected);
        self.settle(answer)
    }

    /// What an accepted reply or model leaves.
    fn settle(&mut self, answer: Result<Answer, u32>) -> u32 {
        let text = match answer {
            Err(number) => return number,
            Ok(Answer::ModelOwed { text }) => {
                self.owed = Owed::Model;
                text
            }
            Ok(Answer::Proved { text } | Answer::Unproved { text, .. }) => {
                self.engine.prove_end();
                assert_eq!(self.engine.take_sent(), text.as_bytes());
                self.goal = None;
                self.owed = Owed::Nothing;
                text
            }
        };
        self.reader.read(text.as_bytes()).expect("never lost");
        0
    }

    /// A fresh session moved straight to the node, with a buffer that its
    /// text fills, is this one but for the open question.
    fn compare_with_fresh(&self, levels: &[Level]) {
        let open = if self.goal.is_some() { 2 } else { 0 };
        let of_node = &levels[..levels.len() - open];
        let mut fresh = Desk::with_book(self.desk.book.clone());
        let line_sizes = of_node.iter().flatten().map(|line| line.len() + 1);
        fresh.text_size = PUSH.len() * (of_node.len() - 1) + line_sizes.sum::<usize>();
        let moved = fresh.move_to(self.node).expect("it fits");
        assert_eq!(moved.len(), fresh.text_size);
        let mut reader = Reader::default();
        reader.read(moved.as_bytes()).expect("never lost");
        assert_eq!(reader.levels(), of_node);

        let (head, levels) = self.desk.image.split_at(IMAGE_HEAD);
        assert_eq!(levels, &fresh.image[IMAGE_HEAD..]);
        let goal = self.goal.unwrap_or(0);
        let numbers = [IMAGE_KIND, self.node, goal, self.owed as u32];
        let expected: Vec<u8> = numbers.iter().flat_map(|n| n.to_le_bytes()).collect();
        assert_eq!(head, expected);
    }
}

fn unproved(reason: &[u8]) -> Answer {
    Answer::Unproved {
        text: POPS.into(),
        reason: reason.to_vec(),
    }
}
