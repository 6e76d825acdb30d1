//! Books, questions and scripts made by hand, for the tests of audits.

use crate::book::{kind, Section, INT};
use crate::book_test::MOST_DEPTH;
use crate::maker::Maker;

/// Commands as lines.
pub const PUSH: &str = "(push 1)\n";
pub const POP: &str = "(pop 1)\n";
pub const CHECK_SAT: &str = "(check-sat)\n";

/// A node and a goal.
pub type Question = [u32; 2];

/// Questions as the call takes them.
pub fn bytes(questions: &[Question]) -> Vec<u8> {
    let numbers = questions.as_flattened().iter();
    numbers.flat_map(|number| number.to_le_bytes()).collect()
}

/// Commands that fill so many bytes: one long line.
pub fn script_of(length: usize) -> Vec<u8> {
    let letters = length - "(assert )\n".len();
    format!("(assert {})\n", "a".repeat(letters)).into_bytes()
}

/// Adds a function that an axiom without a term explains.
pub fn lacking_function(m: &mut Maker) -> u32 {
    let f = m.function("f", &[], INT);
    let missing = m.axiom(None, &[f]);
    m.explained_by(f, &[missing]);
    f
}

/// Node 2 applies a function that lacks its axiom, the book's only one. Node 3
/// hangs below it, node 4 beside it, both harmless as node 1, below which they
/// are.
pub fn lacking() -> Maker {
    let mut m = Maker::default();
    let f = lacking_function(&mut m);
    let terms = [m.boolean(true), m.apply(f, &[]), m.integer(1), m.integer(2)];
    for (parent, term) in [0, 1, 2, 1].into_iter().zip(terms) {
        m.context(parent, term);
    }
    m
}

/// What stands around a name in a node's level, and what a question adds.
const AROUND_A_NAME: usize = "(push 1)\n(assert )\n".len();
const QUESTION: usize = "(push 1)\n(push 1)\n(assert (not true))\n(check-sat)\n".len();
/// Letters of most nodes' names.
const LETTERS: usize = Section::Letters.most() / 2;

/// A book whose one goal has a long text at its last node, and a short one at
/// the root: a chain of nodes with a name each, all of whose letters are shared.
pub struct Long {
    pub maker: Maker,
    pub node: u32,
    pub goal: u32,
}

impl Long {
    /// A text of just so many bytes.
    pub fn new(length: usize) -> Long {
        let mut names = Vec::new();
        let mut rest = length - QUESTION;
        while rest > 0 {
            let letters = (rest - AROUND_A_NAME).min(LETTERS);
            rest -= AROUND_A_NAME + letters;
            names.push(letters);
        }
        Long::of(&names)
    }

    /// As long as a text can be that declares nothing.
    pub fn longest() -> Long {
        Long::of(&[Section::Letters.most(); MOST_DEPTH])
    }

    /// A node for each name, whose length is given.
    fn of(names: &[usize]) -> Long {
        let mut m = Maker {
            letters: vec![b'a'; Section::Letters.most()],
            ..Maker::default()
        };
        let mut node = 0;
        for letters in names {
            m.names.push([0, *letters as u32]);
            let name = m.names.len() as u32 - 1;
            let term = m.term(kind::BUILT_IN, [name, 0, 0]);
            node = m.context(node, term);
        }
        let goal = m.boolean(true);
        Long {
            maker: m,
            node,
            goal,
        }
    }
}
