//! The stack rule: a reader of session text by the assertion stack of
//! SMT-LIB 2.6, and what document 01 gives for a node from the book alone.

use crate::book_test::check;
use crate::commands::{CMD_CHECK_SAT, CMD_GET_MODEL, CMD_POP, CMD_PUSH, LINE_END};
use crate::engine::Sets;
use crate::program::Program;
use crate::sexpr::SExpr;
use crate::sink::Sink;
use crate::walk::Walk;

/// The commands live at one level, in their order, without line ends.
pub type Level = Vec<Vec<u8>>;

/// Text that no accepted calls send.
#[derive(Clone, Copy, Debug, PartialEq, Eq)]
pub enum Lost {
    PoppedFirst,
    NoLineEnd,
}

pub struct Reader {
    levels: Vec<Level>,
}

impl Default for Reader {
    /// A reader starts with one empty level.
    fn default() -> Reader {
        Reader {
            levels: vec![vec![]],
        }
    }
}

impl Reader {
    pub fn levels(&self) -> &[Level] {
        &self.levels
    }

    /// It knows the two lines that the text has: with another numeral, or with
    /// none, a push or pop is a line like any other.
    pub fn read(&mut self, text: &[u8]) -> Result<(), Lost> {
        for line in lines(text)? {
            match line.as_slice() {
                CMD_PUSH => self.levels.push(vec![]),
                CMD_POP if self.levels.len() == 1 => return Err(Lost::PoppedFirst),
                CMD_POP => self.levels.truncate(self.levels.len() - 1),
                CMD_CHECK_SAT | CMD_GET_MODEL => {}
                _ => self.levels.last_mut().expect("never empty").push(line),
            }
        }
        Ok(())
    }
}

/// The lines of a text, each ended by `LINE_END`.
pub fn lines(text: &[u8]) -> Result<Vec<Vec<u8>>, Lost> {
    let Some((last, before)) = text.split_last() else {
        return Ok(vec![]);
    };
    if *last != LINE_END {
        return Err(Lost::NoLineEnd);
    }
    let lines = before.split(|byte| *byte == LINE_END);
    Ok(lines.map(<[u8]>::to_vec).collect())
}

/// The live levels of a node, with an open goal's two levels: from the root
/// down by fresh walks. None where there are none: a refused book, a node or
/// goal outside it, a missing axiom.
pub fn expected_levels(book: &[u8], node: u32, goal: Option<u32>) -> Option<Vec<Level>> {
    let program = check(book).ok()?;
    if !program.has_node(node) || goal.is_some_and(|goal| !program.has_term(goal)) {
        return None;
    }
    levels_of(&program, node as usize, goal.map(|goal| goal as usize))
}

/// The same for a node and goal of the program.
pub fn levels_of(program: &Program, node: usize, goal: Option<usize>) -> Option<Vec<Level>> {
    let mut walk = Walk::new(program, Sets::default(), Sink::unlimited());
    let mut levels = vec![vec![]];
    for node in program.path(node) {
        walk.declare_and_assume(program.node(node)?.expr);
        levels.push(lines(&walk.sent.take()).ok()?);
    }
    if let Some(goal) = goal {
        walk.declare_symbols_of(goal);
        levels.push(lines(&walk.sent.take()).ok()?);
        walk.add_assumption(&SExpr::negation(walk.lowered(goal)));
        levels.push(lines(&walk.sent.take()).ok()?);
    }
    (!walk.missing_axiom).then_some(levels)
}
