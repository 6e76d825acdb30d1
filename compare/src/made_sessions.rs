//! Books at the limits of a session.

use crate::made_terms::nests_of;
use leskofar_reference::book::{kind, Section, INT};
use leskofar_reference::book_test::MOST_DEPTH;
use leskofar_reference::maker::Maker;

/// Nodes as deep as they may be, and a sibling of the deepest. Each has a
/// constant of its own, but for the first ones: there are fewer constants. The
/// last term is a goal with another constant, which the deepest node's question
/// declares at level 401.
pub fn deep() -> Maker {
    let mut m = Maker::default();
    // The sibling and the goal have one each.
    let unnamed = MOST_DEPTH + 2 - Section::Constants.most();
    let mut node = 0;
    let mut above = node;
    for depth in 0..MOST_DEPTH {
        above = node;
        let term = if depth < unnamed {
            m.boolean(true)
        } else {
            new_constant(&mut m)
        };
        node = m.context(above, term);
    }
    let term = new_constant(&mut m);
    m.context(above, term);
    new_constant(&mut m);
    m
}

fn new_constant(m: &mut Maker) -> u32 {
    let v = m.constant(&format!("v{}", m.constants.len()), INT);
    m.id(v)
}

/// A node for each shape of nest, whose term has all the others in it, as many
/// as a book can have.
pub fn nested_nodes() -> Vec<(String, Maker)> {
    let nests = nests_of(Section::Terms.most()).into_iter();
    let with_node = nests.map(|(name, mut m)| {
        let last = m.terms.len() as u32 - 1;
        m.context(0, last);
        (format!("{name} of a node"), m)
    });
    with_node.collect()
}

/// The same nests in an axiom of the function that the node's term applies.
pub fn nested_axioms() -> Vec<(String, Maker)> {
    let nests = nests_of(Section::Terms.most() - 1).into_iter();
    let with_axiom = nests.map(|(name, mut m)| {
        let last = m.terms.len() as u32 - 1;
        let f = m.function("f", &[], INT);
        let axiom = m.axiom(Some(last), &[f]);
        m.explained_by(f, &[axiom]);
        let applied = m.apply(f, &[]);
        m.context(0, applied);
        (format!("{name} of an axiom"), m)
    });
    with_axiom.collect()
}

/// As many functions as there can be, each with an axiom that applies the next
/// one inside a nest; the last applies the first.
pub fn axiom_chain() -> Maker {
    let mut m = Maker::default();
    let count = Section::Axioms.most() as u32;
    let not = m.name("not");
    for _ in 0..count {
        m.function("f", &[], INT);
    }
    // The node's term takes one; the rest is shared out.
    let nesting = Section::Terms.most() / count as usize - 2;
    for function in 0..count {
        let mut term = m.apply((function + 1) % count, &[]);
        for _ in 0..nesting {
            let [start, args] = m.list(&[term]);
            term = m.term(kind::BUILT_IN, [not, start, args]);
        }
        let axiom = m.axiom(Some(term), &[function]);
        m.explained_by(function, &[axiom]);
    }
    let first = m.apply(0, &[]);
    m.context(0, first);
    m
}

/// A function whose axiom applies it inside a nest of all terms. As a goal that
/// nest is walked twice at once: the function in it sends the axiom.
pub fn own_axiom() -> Maker {
    let mut m = Maker::default();
    let not = m.name("not");
    let f = m.function("f", &[], INT);
    let mut term = m.apply(f, &[]);
    while m.terms.len() < Section::Terms.most() {
        let [start, args] = m.list(&[term]);
        term = m.term(kind::BUILT_IN, [not, start, args]);
    }
    let axiom = m.axiom(Some(term), &[f]);
    m.explained_by(f, &[axiom]);
    m
}
