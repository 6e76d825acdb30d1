//! A plainer view of the nodes that lack an axiom, from a maker's records: what
//! the reference's is held against. Functions and axioms alone decide it, so
//! nothing else is kept.

use crate::naive_listing::entries;
use leskofar_reference::book::{kind, NO_TERM};
use leskofar_reference::maker::Maker;
use std::collections::BTreeSet;

/// What is still to be walked; the last comes first.
enum Open {
    Term(u32),
    Axiom(u32),
}

pub fn naive_first_failing(m: &Maker, nodes: &[u32]) -> Option<usize> {
    let failing: Vec<usize> = (0..nodes.len())
        .filter(|at| naive_lacks_an_axiom(m, nodes[*at]))
        .collect();
    failing.into_iter().min()
}

pub fn naive_lacks_an_axiom(m: &Maker, node: u32) -> bool {
    let mut agenda = Vec::new();
    let mut at = node;
    while at > 0 {
        let [parent, term, _] = m.contexts[at as usize - 1];
        agenda.push(Open::Term(term));
        at = parent;
    }
    let [mut declared, mut sent] = [BTreeSet::new(), BTreeSet::new()];
    while let Some(open) = agenda.pop() {
        match open {
            Open::Term(term) => {
                let children = children(m, term).into_iter().rev();
                agenda.extend(children.map(Open::Term));
                let [kind, function, ..] = m.terms[term as usize];
                if kind == kind::FUNCTION && declared.insert(function) {
                    let [.., start, count] = m.functions[function as usize];
                    let axioms = entries(m, start, count).iter().rev();
                    agenda.extend(axioms.map(|axiom| Open::Axiom(*axiom)));
                }
            }
            Open::Axiom(axiom) => {
                let [term, start, count] = m.axioms[axiom as usize];
                if term == NO_TERM {
                    return true;
                }
                let explained = entries(m, start, count);
                let is_due = explained.iter().all(|f| declared.contains(f));
                if is_due && sent.insert(axiom) {
                    agenda.push(Open::Term(term));
                }
            }
        }
    }
    false
}

fn children(m: &Maker, term: u32) -> Vec<u32> {
    let [kind, a, b, c, d, e, f] = m.terms[term as usize];
    match kind {
        kind::BUILT_IN | kind::FUNCTION => entries(m, b, c).to_vec(),
        kind::IF_THEN_ELSE => vec![a, b, c],
        kind::LET => vec![b, c],
        kind::QUANTIFIER => {
            let patterns = entries(m, d, e).iter();
            let hints = patterns.flat_map(|pattern| {
                let [start, count] = m.patterns[*pattern as usize];
                entries(m, start, count)
            });
            hints.chain([&f]).copied().collect()
        }
        _ => vec![],
    }
}
