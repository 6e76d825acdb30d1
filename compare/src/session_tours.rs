//! Session calls on made books, for the rules of the walk and at the limits,
//! against the reference.

use crate::calls::{Call, Measure, FAILED, OK};
use crate::lists::on_book;
use crate::made_rules::{missing_axiom, rules};
use crate::made_sessions::{axiom_chain, deep, nested_axioms, nested_nodes};
use crate::seen::{Seen, RESULTS};
use crate::session_shapes::SESSION_SHAPES;
use crate::tally::Tally;
use leskofar_reference::maker::Maker;
use leskofar_reference::refusal::MISSING_AXIOM;
use leskofar_reference::session::UNSAT;

/// More than the text of a book with a missing axiom has.
const ROOM: usize = 1 << 10;

/// To the last node, its questions with every end, to the one before it, and
/// back; each call with a text buffer too short by one, then long enough.
pub fn tour(m: &Maker, measure: &mut Measure, seen: &mut Seen) -> Result<(), String> {
    let node = m.contexts.len() as u32;
    let goal = m.terms.len() as u32 - 1;
    let ask = Call::Ask { node, goal };
    let calls = [
        Call::Move { node },
        ask.clone(),
        Call::reply(OK, UNSAT),
        Call::Move { node: node - 1 },
        ask,
        Call::reply(OK, b"sat"),
        Call::model(b"sat", Some(b"model")),
        Call::Move { node: 0 },
        Call::Ask { node: 0, goal },
        Call::reply(FAILED, b"error"),
    ];
    let book = m.book();
    on_book(m, |list| {
        for call in calls {
            let (text, reason) = measure.lengths(&call, &book, list.image());
            if text > 0 {
                list.step(&call, text - 1, reason, seen)?;
            }
            let left = list.step(&call, text, reason, seen)?;
            if !left.accepted() {
                return Err(format!("{:?} of {call:?}", left.answer));
            }
        }
        Ok(())
    })
}

fn rule_groups(tally: &mut Tally) {
    tally.group("session, rules of the walk", || {
        let mut seen = Seen::default();
        let mut measure = Measure::new();
        for (name, m) in rules() {
            tour(&m, &mut measure, &mut seen).map_err(|what| format!("{name}: {what}"))?;
        }
        seen.shapes
            .all_of(&SESSION_SHAPES[..SESSION_SHAPES.len() - 2])
    });
    tally.group("session, a missing axiom", || {
        let mut seen = Seen::default();
        let m = missing_axiom();
        let goal = m.terms.len() as u32 - 1;
        on_book(&m, |list| {
            // With and without room, before and after a move that needs none.
            for node in [0, 1] {
                for room in [0, ROOM] {
                    for call in [Call::Move { node: 2 }, Call::Ask { node, goal }] {
                        let left = list.step(&call, room, 0, &mut seen)?;
                        if left.answer.refusal != MISSING_AXIOM {
                            return Err(format!("{:?} of {call:?}", left.answer));
                        }
                    }
                }
                list.step(&Call::Move { node: 1 }, ROOM, 0, &mut seen)?;
            }
            Ok(())
        })?;
        seen.refusals[0].all_of(&[0, MISSING_AXIOM])
    });
}

fn limit_groups(tally: &mut Tally) {
    tally.group("session, 400 nodes deep and a goal at level 401", || {
        let mut seen = Seen::default();
        tour(&deep(), &mut Measure::new(), &mut seen)?;
        seen.shapes
            .all_of(&SESSION_SHAPES[SESSION_SHAPES.len() - 2..])
    });
    tally.group("session, as deep as a book can nest", || {
        let mut seen = Seen::default();
        let mut measure = Measure::new();
        let mut books = nested_nodes();
        books.extend(nested_axioms());
        books.push(("axioms of axioms".into(), axiom_chain()));
        for (name, m) in books {
            tour(&m, &mut measure, &mut seen).map_err(|what| format!("{name}: {what}"))?;
        }
        seen.results.all_of(&RESULTS[..RESULTS.len() - 1])
    });
}

pub fn run(tally: &mut Tally) {
    rule_groups(tally);
    limit_groups(tally);
}
