//! Books with as many terms as there can be, each of which is referred to just
//! once: the marks of all terms are set.

use crate::made_terms::nests;
use crate::referring::{ROOT, TERMS};
use leskofar_reference::book::{Section, BOOL};
use leskofar_reference::maker::Maker;
use std::collections::VecDeque;

/// Leaves of the mixed forest: so many that the terms above them, of which each
/// takes two or so, leave fewer than axioms and contexts can refer to.
const LEAVES: usize = 700;
/// Sorts of terms above them.
const SORTS: usize = 5;

/// All terms but the last are its arguments, in their order: entry t of the
/// lists is t.
pub fn flat() -> Maker {
    let mut m = Maker::default();
    let leaves: Vec<u32> = (1..TERMS).map(|_| m.boolean(true)).collect();
    let above = m.built_in("and", &leaves);
    m.context(ROOT, above);
    m
}

/// References of every sort, with axioms for as many terms as there can be.
pub fn mixed() -> Maker {
    let mut m = Maker::default();
    let v = m.constant("c", BOOL);
    let f = m.function("f", &[], BOOL);
    let mut free: VecDeque<u32> = (0..LEAVES).map(|_| m.boolean(true)).collect();
    while m.terms.len() < TERMS {
        let mut take = || free.pop_front().expect("a term that is not referred to");
        let added = match m.terms.len() % SORTS {
            0 => m.built_in("and", &[take(), take()]),
            1 => m.apply(f, &[take(), take()]),
            2 => m.if_then_else(take(), take(), take()),
            3 => m.let_expr(v, take(), take()),
            _ => {
                let pattern = m.pattern(&[take()]);
                m.quantifier(true, &[v], &[pattern], take())
            }
        };
        free.push_back(added);
    }
    refer_to_each(&mut m, free);
    m
}

/// All terms inside one, for each shape of a nest, but for the last one or two
/// where a shape has no room for them.
pub fn nested() -> Vec<(&'static str, Maker)> {
    let with_roots = |(name, mut m): (&'static str, Maker)| {
        let last = m.terms.len() as u32 - 1;
        while m.terms.len() < TERMS {
            m.boolean(true);
        }
        refer_to_each(&mut m, last..TERMS as u32);
        (name, m)
    };
    nests().into_iter().map(with_roots).collect()
}

/// By axioms, and by contexts where there are no more axioms.
fn refer_to_each(m: &mut Maker, terms: impl IntoIterator<Item = u32>) {
    for term in terms {
        if m.axioms.len() < Section::Axioms.most() {
            m.axiom(Some(term), &[]);
        } else {
            m.context(ROOT, term);
        }
    }
}
