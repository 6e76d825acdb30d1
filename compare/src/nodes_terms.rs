//! Books with a node for each place that a function can have in a term, and
//! for each order of two of them.

use crate::nodes_books::Lacking;
use leskofar_reference::book::INT;
use leskofar_reference::maker::Maker;

/// The constant that terms bind.
const V: u32 = 0;

/// How a term holds another one inside it.
type Holder = fn(&mut Maker, u32) -> u32;

const HOLDERS: [Holder; 14] = [
    |_, inner| inner,
    |m, inner| m.built_in("and", &[inner]),
    |m, inner| {
        let [first, last] = [m.id(V), m.integer(1)];
        m.built_in("and", &[first, inner, last])
    },
    |m, inner| {
        let outer = m.function("outer", &[], INT);
        m.apply(outer, &[inner])
    },
    |m, inner| {
        let [thn, els] = [m.id(V), m.id(V)];
        m.if_then_else(inner, thn, els)
    },
    |m, inner| {
        let [guard, els] = [m.boolean(true), m.id(V)];
        m.if_then_else(guard, inner, els)
    },
    |m, inner| {
        let [guard, thn] = [m.boolean(true), m.id(V)];
        m.if_then_else(guard, thn, inner)
    },
    |m, inner| {
        let body = m.id(V);
        m.let_expr(V, inner, body)
    },
    |m, inner| {
        let rhs = m.integer(1);
        m.let_expr(V, rhs, inner)
    },
    |m, inner| m.quantifier(true, &[V], &[], inner),
    |m, inner| m.quantifier(false, &[], &[], inner),
    |m, inner| {
        let pattern = m.pattern(&[inner]);
        let body = m.id(V);
        m.quantifier(true, &[V], &[pattern], body)
    },
    // Nothing of these patterns is printed.
    |m, inner| {
        let pattern = m.pattern(&[inner]);
        let body = m.id(V);
        m.quantifier(true, &[], &[pattern], body)
    },
    |m, inner| {
        let hint = m.id(V);
        let patterns = [m.pattern(&[]), m.pattern(&[hint, inner])];
        let body = m.boolean(true);
        m.quantifier(true, &[V, V], &patterns, body)
    },
];

/// Of each two nodes the first has a function there whose axiom is missing, and
/// the second one whose axiom is not.
pub fn every_place_of_a_term() -> Lacking {
    let mut m = Maker::default();
    m.constant("v", INT);
    let axioms = [None, Some(m.boolean(true))].map(|term| m.axiom(term, &[]));
    let functions = axioms.map(|axiom| {
        let function = m.function("f", &[], INT);
        m.explained_by(function, &[axiom]);
        function
    });
    let mut failing = Vec::new();
    for holder in HOLDERS {
        let nodes = functions.map(|function| {
            let inner = m.apply(function, &[]);
            let term = holder(&mut m, inner);
            m.context(0, term)
        });
        failing.push(nodes[0]);
    }
    Lacking {
        name: "every place of a term",
        maker: m,
        failing,
    }
}

/// How a term holds two others, the first of which is walked first.
type Pair = fn(&mut Maker, [u32; 2]) -> u32;

const PAIRS: [Pair; 9] = [
    |m, both| m.built_in("and", &both),
    |m, both| {
        let outer = m.function("outer", &[], INT);
        m.apply(outer, &both)
    },
    |m, [guard, thn]| {
        let els = m.id(V);
        m.if_then_else(guard, thn, els)
    },
    |m, [thn, els]| {
        let guard = m.boolean(true);
        m.if_then_else(guard, thn, els)
    },
    |m, [rhs, body]| m.let_expr(V, rhs, body),
    |m, [hint, body]| {
        let pattern = m.pattern(&[hint]);
        m.quantifier(true, &[V], &[pattern], body)
    },
    |m, [hint, body]| {
        let pattern = m.pattern(&[hint]);
        m.quantifier(true, &[], &[pattern], body)
    },
    |m, both| {
        let pattern = m.pattern(&both);
        let body = m.id(V);
        m.quantifier(false, &[V], &[pattern], body)
    },
    |m, [first, second]| {
        let patterns = [m.pattern(&[first]), m.pattern(&[second])];
        let body = m.id(V);
        m.quantifier(false, &[], &patterns, body)
    },
];

/// An axiom that leads to a missing one explains two functions, and the second
/// one lists it: it is sent where the first one is declared before.
pub fn every_order_in_a_term() -> Lacking {
    let mut m = Maker::default();
    m.constant("v", INT);
    let [lost, first, second] = ["lost", "first", "second"].map(|f| m.function(f, &[], INT));
    let missing = m.axiom(None, &[]);
    m.explained_by(lost, &[missing]);
    let leads_there = m.apply(lost, &[]);
    let axiom = m.axiom(Some(leads_there), &[first, second]);
    m.explained_by(second, &[axiom]);
    let mut failing = Vec::new();
    for pair in PAIRS {
        let nodes = [[first, second], [second, first]].map(|functions| {
            let both = functions.map(|function| m.apply(function, &[]));
            let term = pair(&mut m, both);
            m.context(0, term)
        });
        failing.push(nodes[0]);
    }
    // A function before its arguments.
    let nodes = [[first, second], [second, first]].map(|[outer, inner]| {
        let args = [m.apply(inner, &[])];
        let term = m.apply(outer, &args);
        m.context(0, term)
    });
    failing.push(nodes[0]);
    Lacking {
        name: "every order in a term",
        maker: m,
        failing,
    }
}
