//! Trees of nodes, up to as many and as deep as there can be.

use leskofar_reference::book::{kind, Section, INT};
use leskofar_reference::book_test::MOST_DEPTH;
use leskofar_reference::maker::Maker;

/// The nodes of the longest spine of a comb, which its teeth hang below.
pub const SPINE: usize = MOST_DEPTH - 1;
/// As many teeth as there can be below it.
pub const MOST_TEETH: usize = Section::Contexts.most() - SPINE;

/// The parent of each node, in their order.
pub type Parents = Vec<u32>;

/// So many nodes in chains of a depth, one behind the other.
pub fn chains(nodes: usize, depth: usize) -> Parents {
    let starts = |node: usize| node.is_multiple_of(depth);
    let parents = (0..nodes).map(|node| if starts(node) { 0 } else { node as u32 });
    parents.collect()
}

/// A spine of so many nodes, and so many below its end.
pub fn comb(spine: usize, teeth: usize) -> Parents {
    let end = spine as u32;
    (0..end).chain(vec![end; teeth]).collect()
}

/// So many nodes below the root.
pub fn star(nodes: usize) -> Parents {
    vec![0; nodes]
}

/// A book with such nodes. Each has a constant in its term, no two the same as
/// far as there are so many; the given ones apply a function instead, whose
/// axiom is missing.
pub fn planted(parents: &[u32], lacking: &[u32]) -> Maker {
    let mut m = Maker::default();
    let missing = m.axiom(None, &[]);
    let lost = m.function("lost", &[], INT);
    m.explained_by(lost, &[missing]);
    let not = m.name("not");
    for constant in 0..Section::Constants.most().min(parents.len()) {
        m.constant(&format!("v{constant}"), INT);
    }
    for (record, parent) in parents.iter().enumerate() {
        let node = record as u32 + 1;
        let term = if lacking.contains(&node) {
            m.apply(lost, &[])
        } else {
            let args = [m.id(node % m.constants.len() as u32)];
            let [start, count] = m.list(&args);
            m.term(kind::BUILT_IN, [not, start, count])
        };
        m.context(*parent, term);
    }
    m
}

/// Whether each node fails, the root first: by itself or by its parent.
pub fn failing(parents: &[u32], lacking: &[u32]) -> Vec<bool> {
    let mut failing = vec![false];
    for (record, parent) in parents.iter().enumerate() {
        let lacks = lacking.contains(&(record as u32 + 1));
        failing.push(lacks || failing[*parent as usize]);
    }
    failing
}
