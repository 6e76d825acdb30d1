//! What a list of nodes that was not refused had in it, and where its first
//! failing node lacked an axiom, so that a comparison can tell what it never
//! met.

use crate::session_shapes::applied;
use leskofar_reference::book_test::MOST_DEPTH;
use leskofar_reference::nodes::MOST_NODES;
use leskofar_reference::program::{Program, RExpr, ROperator, ROOT};

const EMPTY: &str = "empty list";
const LONGEST: &str = "longest list";
const THE_ROOT: &str = "the root";
const DEEPEST: &str = "deepest node";
const TWICE: &str = "a node twice";
const DOWN: &str = "down";
const UP: &str = "up";
const ACROSS: &str = "across";

const BELOW: &str = "below a node that fails";
const IN_AN_AXIOM: &str = "missed in an axiom";
const NEVER_SENT: &str = "missed although never sent";
const MISSED_TWICE: &str = "failing twice";
pub const NODES_SHAPES: [&str; 12] = [
    EMPTY,
    LONGEST,
    THE_ROOT,
    DEEPEST,
    TWICE,
    DOWN,
    UP,
    ACROSS,
    BELOW,
    IN_AN_AXIOM,
    NEVER_SENT,
    MISSED_TWICE,
];

/// Visits the shapes of a list.
pub fn visit_list(program: &Program, nodes: &[usize], see: &mut impl FnMut(&'static str)) {
    let depths = nodes.iter().map(|node| program.depth(*node));
    let mut sorted = nodes.to_vec();
    sorted.sort_unstable();
    for (holds, shape) in [
        (nodes.is_empty(), EMPTY),
        (nodes.len() == MOST_NODES, LONGEST),
        (nodes.contains(&ROOT), THE_ROOT),
        (depths.max() == Some(MOST_DEPTH), DEEPEST),
        (sorted.windows(2).any(|two| two[0] == two[1]), TWICE),
    ] {
        if holds {
            see(shape);
        }
    }
    for two in nodes.windows(2).filter(|two| two[0] != two[1]) {
        let is_above = |above: usize, below: usize| program.path(below).contains(&above);
        let is_root = |node: usize| node == ROOT;
        see(if is_root(two[0]) || is_above(two[0], two[1]) {
            DOWN
        } else if is_root(two[1]) || is_above(two[1], two[0]) {
            UP
        } else {
            ACROSS
        });
    }
}

/// Visits the shapes of the position that fails.
pub fn visit_failing(
    program: &Program,
    nodes: &[usize],
    position: usize,
    parent_fails: bool,
    see: &mut impl FnMut(&'static str),
) {
    let failing = nodes[position];
    let listed = missing_on_the_way(program, failing);
    let is_applied = |function: &usize| {
        let mut terms = program.terms.iter();
        terms.any(|term| applied_by(term) == Some(*function))
    };
    let never_sent = |axiom: &usize| !program.axioms[*axiom].explains.iter().all(is_applied);
    for (holds, shape) in [
        (parent_fails, BELOW),
        (listed.is_empty(), IN_AN_AXIOM),
        (
            !listed.is_empty() && listed.iter().all(never_sent),
            NEVER_SENT,
        ),
        (nodes[position + 1..].contains(&failing), MISSED_TWICE),
    ] {
        if holds {
            see(shape);
        }
    }
}

/// The function that a term itself applies.
fn applied_by(term: &RExpr) -> Option<usize> {
    match term {
        RExpr::FuncAppl {
            op: ROperator::UserDefinedFunction(function),
            ..
        } => Some(*function),
        _ => None,
    }
}

/// The missing axioms of the functions that a node's terms apply, and those of
/// the nodes above it.
fn missing_on_the_way(program: &Program, node: usize) -> Vec<usize> {
    let path = program.path(node).into_iter();
    let terms = path.filter_map(|node| program.node(node)).map(|n| n.expr);
    let functions = terms.flat_map(|term| applied(program, term));
    let axioms = functions.flat_map(|f| program.functions[f].explained_by.clone());
    axioms
        .filter(|axiom| program.axioms[*axiom].term.is_none())
        .collect()
}
