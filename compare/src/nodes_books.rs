//! Small books, each with an axiom missing at another place, and the nodes
//! that fail for it.

use leskofar_reference::book::INT;
use leskofar_reference::maker::Maker;

/// A book with its failing nodes, in their order.
pub struct Lacking {
    pub name: &'static str,
    pub maker: Maker,
    pub failing: Vec<u32>,
}

/// Nodes, each as its parent and its term.
fn lacking(name: &'static str, mut maker: Maker, nodes: &[(u32, u32)], failing: &[u32]) -> Lacking {
    for (parent, term) in nodes {
        maker.context(*parent, *term);
    }
    Lacking {
        name,
        maker,
        failing: failing.to_vec(),
    }
}

/// A function with no arguments and its axioms.
fn explained(m: &mut Maker, axioms: &[u32]) -> u32 {
    let function = m.function("f", &[], INT);
    m.explained_by(function, axioms);
    function
}

/// A function whose one axiom has no term, and explains nothing.
fn lost(m: &mut Maker) -> u32 {
    let missing = m.axiom(None, &[]);
    explained(m, &[missing])
}

/// A function with an axiom that applies another one, or that has no part.
fn leading(m: &mut Maker, to: Option<u32>) -> u32 {
    let term = match to {
        Some(function) => m.apply(function, &[]),
        None => m.boolean(true),
    };
    let axiom = m.axiom(Some(term), &[]);
    explained(m, &[axiom])
}

fn applied<const N: usize>(m: &mut Maker, functions: [u32; N]) -> [u32; N] {
    functions.map(|function| m.apply(function, &[]))
}

pub fn lacking_books() -> Vec<Lacking> {
    vec![
        under_a_node(),
        in_a_sibling(),
        in_an_axiom_of_an_axiom(),
        below_an_axiom_of_an_axiom(),
        listed_but_never_sent(),
        declared_above(),
        sent_already(),
        waiting_for_another(),
        sent_in_one_order(),
        last_of_several(),
        in_a_cycle(),
        by_number(),
        of_no_node(),
        without_nodes(),
    ]
}

fn under_a_node() -> Lacking {
    let mut m = Maker::default();
    let lost = lost(&mut m);
    let nodes = [
        (0, m.boolean(true)),
        (1, m.apply(lost, &[])),
        (2, m.integer(1)),
        (3, m.integer(2)),
        (1, m.integer(3)),
        (5, m.integer(4)),
    ];
    lacking("under a node", m, &nodes, &[2, 3, 4])
}

fn in_a_sibling() -> Lacking {
    let mut m = Maker::default();
    let [lost, kept] = [lost(&mut m), leading(&mut m, None)];
    let [bad, good, below] = applied(&mut m, [lost, kept, kept]);
    let nodes = [(0, bad), (0, good), (2, below)];
    lacking("in a sibling", m, &nodes, &[1])
}

fn in_an_axiom_of_an_axiom() -> Lacking {
    let mut m = Maker::default();
    let lost = lost(&mut m);
    let first = leading(&mut m, Some(lost));
    let second = leading(&mut m, Some(first));
    let kept = leading(&mut m, None);
    let terms = applied(&mut m, [kept, second, first, lost, kept]);
    let nodes = terms.map(|term| (0, term));
    lacking("in an axiom of an axiom", m, &nodes, &[2, 3, 4])
}

/// The upper node declares the function in an axiom's axiom, so that the lower
/// one has nothing to look up.
fn below_an_axiom_of_an_axiom() -> Lacking {
    let mut m = Maker::default();
    let last = leading(&mut m, None);
    let first = leading(&mut m, Some(last));
    let lost = lost(&mut m);
    let [above, below, beside, bad] = applied(&mut m, [first, last, last, lost]);
    let nodes = [(0, above), (1, below), (0, beside), (2, bad)];
    lacking("below an axiom of an axiom", m, &nodes, &[4])
}

/// It explains a function that is not declared, at first or at all.
fn listed_but_never_sent() -> Lacking {
    let mut m = Maker::default();
    let [never, late] = [(); 2].map(|()| explained(&mut m, &[]));
    let missing = [never, late].map(|function| m.axiom(None, &[function]));
    let functions = missing.map(|axiom| explained(&mut m, &[axiom]));
    let [bad, also_bad, good] = applied(&mut m, [functions[0], functions[1], late]);
    let nodes = [(0, bad), (0, also_bad), (2, good), (0, m.integer(1))];
    lacking("listed but never sent", m, &nodes, &[1, 2, 3])
}

/// The lower node looks nothing up; it fails for the upper one.
fn declared_above() -> Lacking {
    let mut m = Maker::default();
    let lost = lost(&mut m);
    let terms = applied(&mut m, [lost, lost, lost]);
    let nodes = [
        (0, terms[0]),
        (1, terms[1]),
        (0, m.boolean(true)),
        (3, terms[2]),
    ];
    lacking("a function declared above", m, &nodes, &[1, 2, 4])
}

/// Two functions list one axiom. Sent above, it is not sent again; but its
/// term is there, and nothing lacks.
fn sent_already() -> Lacking {
    let mut m = Maker::default();
    let inner = leading(&mut m, None);
    let term = m.apply(inner, &[]);
    let axiom = m.axiom(Some(term), &[]);
    let missing = m.axiom(None, &[]);
    let [first, second] = [(); 2].map(|()| explained(&mut m, &[axiom]));
    let third = explained(&mut m, &[axiom, missing]);
    let [a, b, c] = applied(&mut m, [first, second, third]);
    let nodes = [(0, a), (1, b), (2, c), (2, m.integer(1))];
    lacking("an axiom sent already", m, &nodes, &[3])
}

/// The axiom that leads to the missing one is sent where both functions that
/// it explains are declared, by the one that comes last.
fn waiting_for_another() -> Lacking {
    let mut m = Maker::default();
    let lost = lost(&mut m);
    let [f, g] = [(); 2].map(|()| explained(&mut m, &[]));
    let leads_there = m.apply(lost, &[]);
    let axiom = m.axiom(Some(leads_there), &[f, g]);
    for function in [f, g] {
        m.explained_by(function, &[axiom]);
    }
    let terms = applied(&mut m, [f, f, g, g, f]);
    let nodes = [
        (0, terms[0]),
        (1, terms[1]),
        (2, terms[2]),
        (0, terms[3]),
        (4, terms[4]),
    ];
    lacking("waiting for another function", m, &nodes, &[3, 5])
}

/// As before, but only one of the two lists the axiom.
fn sent_in_one_order() -> Lacking {
    let mut m = Maker::default();
    let lost = lost(&mut m);
    let [f, g] = [(); 2].map(|()| explained(&mut m, &[]));
    let leads_there = m.apply(lost, &[]);
    let axiom = m.axiom(Some(leads_there), &[f, g]);
    m.explained_by(f, &[axiom]);
    let terms = applied(&mut m, [f, g, g, f]);
    let nodes = [(0, terms[0]), (1, terms[1]), (0, terms[2]), (3, terms[3])];
    lacking("sent in one order only", m, &nodes, &[4])
}

fn last_of_several() -> Lacking {
    let mut m = Maker::default();
    let terms = [m.boolean(true), m.boolean(false)];
    let [first, second] = terms.map(|term| m.axiom(Some(term), &[]));
    let missing = m.axiom(None, &[]);
    let good = explained(&mut m, &[first, second, first]);
    let bad = explained(&mut m, &[first, second, missing]);
    let [above, below, beside] = applied(&mut m, [good, bad, good]);
    let nodes = [(0, above), (1, below), (0, beside)];
    lacking("the last of several axioms", m, &nodes, &[2])
}

fn in_a_cycle() -> Lacking {
    let mut m = Maker::default();
    let [f, g] = [(); 2].map(|()| explained(&mut m, &[]));
    let [of_f, of_g] = applied(&mut m, [g, f]);
    let axioms = [of_f, of_g].map(|term| m.axiom(Some(term), &[]));
    let missing = m.axiom(None, &[f, g]);
    m.explained_by(f, &axioms[..1]);
    m.explained_by(g, &[axioms[1], missing]);
    let own = explained(&mut m, &[]);
    let term = m.apply(own, &[]);
    let axiom = m.axiom(Some(term), &[own]);
    m.explained_by(own, &[axiom]);
    let nodes = applied(&mut m, [own, f, g]).map(|term| (0, term));
    lacking("in a cycle", m, &nodes, &[2, 3])
}

/// Functions, axioms and nodes are told apart by their numbers: names and
/// terms are the same.
fn by_number() -> Lacking {
    let mut m = Maker::default();
    let [kept, lost, free] = [leading(&mut m, None), lost(&mut m), explained(&mut m, &[])];
    let nodes = applied(&mut m, [kept, lost, free]).map(|term| (0, term));
    lacking("by number", m, &nodes, &[2])
}

/// In a goal, in a pattern that no quantifier lists, in an axiom that no
/// function lists, and in one that waits for ever.
fn of_no_node() -> Lacking {
    let mut m = Maker::default();
    let lost = lost(&mut m);
    let [_goal, hint, unlisted, waits] = applied(&mut m, [lost; 4]);
    m.pattern(&[hint]);
    m.axiom(Some(unlisted), &[]);
    let never = explained(&mut m, &[]);
    let axiom = m.axiom(Some(waits), &[never]);
    let waiting = explained(&mut m, &[axiom]);
    let nodes = [(0, m.boolean(true)), (1, m.apply(waiting, &[]))];
    lacking("of no node", m, &nodes, &[])
}

fn without_nodes() -> Lacking {
    let mut m = Maker::default();
    let lost = lost(&mut m);
    m.apply(lost, &[]);
    lacking("without nodes", m, &[], &[])
}
