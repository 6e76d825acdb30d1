//! Which term a live assertion may be of, by the place of its line and by its
//! text.

use crate::lower::to_sexpr;
use crate::program::Program;
use crate::sexpr::{SExpr, SExprPrintConfig};
use crate::sink::Sink;

/// What is asserted: a term, or that a goal does not hold.
#[derive(Clone, Copy, Debug, PartialEq, Eq)]
pub enum Said {
    Term(usize),
    Denial(usize),
}

/// What the last line of each level asserts: the root has no line, each node of
/// the path ends with its term, and a goal has a level for what it declares and
/// one for its denial. Whatever else is asserted is an axiom.
pub fn last_of_levels(program: &Program, node: usize, goal: Option<usize>) -> Vec<Option<Said>> {
    let path = program.path(node);
    let nodes = path.iter().filter_map(|node| program.node(*node));
    let of_goal = goal.map(|goal| [None, Some(Said::Denial(goal))]);
    [None]
        .into_iter()
        .chain(nodes.map(|node| Some(Said::Term(node.expr))))
        .chain(of_goal.into_iter().flatten())
        .collect()
}

impl Said {
    pub fn term(self) -> usize {
        match self {
            Said::Term(term) | Said::Denial(term) => term,
        }
    }

    /// Whether a line says so, whatever number stands for `%tag`: the first
    /// stands where the lines for two numbers first differ.
    pub fn is_line(self, program: &Program, line: &[u8]) -> bool {
        let printed = |tag| self.line(program, tag);
        let [zero, one] = [0, 1].map(printed);
        let mut places = zero.iter().zip(&one);
        match places.position(|(zero, one)| zero != one) {
            None => line == zero,
            Some(at) => number_at(line, at).is_some_and(|tag| line == printed(tag)),
        }
    }

    fn line(self, program: &Program, tag: u64) -> Vec<u8> {
        let lowered = |term| to_sexpr(program, term, tag);
        let asserted = match self {
            Said::Term(term) => lowered(term),
            Said::Denial(goal) => SExpr::negation(lowered(goal)),
        };
        let mut sink = Sink::unlimited();
        sink.write(b"(assert ");
        asserted.print(SExprPrintConfig::ONE_LINE, &mut sink);
        sink.write(b")");
        sink.take()
    }
}

/// The number whose digits begin there.
fn number_at(text: &[u8], at: usize) -> Option<u64> {
    let digits = text.get(at..)?.iter();
    let digits = digits.take_while(|byte| byte.is_ascii_digit()).copied();
    String::from_utf8(digits.collect()).ok()?.parse().ok()
}
