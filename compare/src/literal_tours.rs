//! Lists of calls on books of literals, and how many literals they walk and
//! declare.

use crate::calls::{Call, Left, Measure, FAILED, OK};
use crate::lists::List;
use crate::literal_shapes::{literals_of, visit, whole_name};
use crate::seen::Seen;
use crate::tally::Met;
use leskofar_reference::book_test::check;
use leskofar_reference::maker::Maker;
use leskofar_reference::program::{Program, ROOT};
use leskofar_reference::session::UNSAT;
use leskofar_reference::stack::lines;
use std::collections::BTreeSet;

/// How the line that declares a literal begins. No other name of these books
/// begins with a bar.
const DECLARATION: &[u8] = b"(declare-fun |";

/// The calls of a group.
pub struct Tour {
    measure: Measure,
    seen: Seen,
    pub shapes: Met<&'static str>,
    books: usize,
    calls: usize,
    /// Literals on the way of accepted calls, `%tag` and axioms left out.
    walked: usize,
    /// Literals that the texts declare.
    declared: usize,
}

impl Tour {
    pub fn new() -> Tour {
        Tour {
            measure: Measure::new(),
            seen: Seen::default(),
            shapes: Met::default(),
            books: 0,
            calls: 0,
            walked: 0,
            declared: 0,
        }
    }

    /// Makes the calls, each with a text buffer too short by one, then long
    /// enough, and tells how many literals each declared.
    pub fn on(&mut self, m: &Maker, calls: &[Call]) -> Result<Vec<usize>, String> {
        let book = m.book();
        let program = check(&book).map_err(|refusal| format!("refused {refusal}"))?;
        let mut list = List::new(m)?;
        let mut from = ROOT;
        let mut declared = Vec::new();
        for call in calls {
            let (text, reason) = self.measure.lengths(call, &book, list.image());
            if let Some(short) = text.checked_sub(1) {
                list.step(call, short, reason, &mut self.seen)?;
                self.calls += 1;
            }
            let left = list.step(call, text, reason, &mut self.seen)?;
            self.calls += 1;
            if !left.accepted() {
                return Err(format!("{:?} of {call:?}", left.answer));
            }
            declared.push(self.told(&program, &mut from, call, &left)?);
        }
        self.books += 1;
        Ok(declared)
    }

    /// How many literals an accepted call declared: without axioms, as many
    /// as there are new names on its way.
    fn told(
        &mut self,
        program: &Program,
        from: &mut usize,
        call: &Call,
        left: &Left,
    ) -> Result<usize, String> {
        let declared = declarations(left.text())?;
        let (node, goal) = match call {
            Call::Move { node } => (*node as usize, None),
            Call::Ask { node, goal } => (*node as usize, Some(*goal as usize)),
            Call::Reply { .. } | Call::Model { .. } => return Ok(declared),
        };
        let [old, new] = [*from, node].map(|node| program.path(node));
        let shared = old.iter().zip(&new).take_while(|(a, b)| a == b).count();
        let before = literals_on(program, &new[..shared], None);
        let after = literals_on(program, &new, goal);
        let [known, names] = [&before, &after].map(|terms| names_of(program, terms));
        let expected = names.len() - known.len();
        if program.axioms.is_empty() && declared != expected {
            return Err(format!("{declared} new names, expected {expected}"));
        }
        *from = node;
        let named = after[before.len()..].iter();
        self.walked += named.filter_map(|term| whole_name(program, *term)).count();
        self.declared += declared;
        visit(program, node, left.image(), &mut |shape| {
            self.shapes.add(shape)
        });
        Ok(declared)
    }

    /// Fails unless all of these shapes were met, and no other.
    pub fn only(&self, shapes: &[&'static str]) -> Result<String, String> {
        self.shapes.only(shapes)?;
        self.said()
    }

    /// Fails if nothing was walked or nothing declared.
    pub fn said(&self) -> Result<String, String> {
        let Tour {
            books,
            calls,
            walked,
            declared,
            ..
        } = self;
        if *walked == 0 || *declared == 0 {
            return Err("no literal was declared".to_string());
        }
        Ok(format!(
            "{books} books, {calls} compared, {walked} literals walked, {declared} declared"
        ))
    }
}

/// How many literals a text declares.
fn declarations(text: &[u8]) -> Result<usize, String> {
    let lines = lines(text).map_err(|lost| format!("{lost:?}"))?;
    let declared = lines.iter().filter(|line| line.starts_with(DECLARATION));
    Ok(declared.count())
}

/// The literal terms of some nodes, and of a goal behind them.
fn literals_on(program: &Program, nodes: &[usize], goal: Option<usize>) -> Vec<usize> {
    let nodes = nodes.iter().filter_map(|node| program.node(*node));
    let terms = nodes.map(|node| node.expr).chain(goal);
    terms.flat_map(|term| literals_of(program, term)).collect()
}

fn names_of(program: &Program, terms: &[usize]) -> BTreeSet<Vec<u8>> {
    let named = terms.iter();
    named
        .filter_map(|term| whole_name(program, *term))
        .collect()
}

/// A move.
pub fn go(node: u32) -> Vec<Call> {
    vec![Call::Move { node }]
}

/// A question that is proved.
pub fn proved(node: u32, goal: u32) -> Vec<Call> {
    vec![Call::Ask { node, goal }, Call::reply(OK, UNSAT)]
}

/// A question whose check fails.
pub fn failed(node: u32, goal: u32) -> Vec<Call> {
    vec![Call::Ask { node, goal }, Call::reply(FAILED, b"error")]
}

/// A question with a model.
pub fn refuted(node: u32, goal: u32) -> Vec<Call> {
    let reply = b"sat";
    vec![
        Call::Ask { node, goal },
        Call::reply(OK, reply),
        Call::model(reply, Some(b"model")),
    ]
}
