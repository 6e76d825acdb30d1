//! Which terms of a book can stand inside others in its text. A text's terms
//! are recorded children first, in text order; so a term whose number fits no
//! such place has to be an item of its own, and a name elsewhere.

use crate::program::{Program, RExpr};
use std::collections::HashSet;

pub struct Nesting {
    /// Patterns below this number stand in their quantifiers; the others are
    /// items, behind all terms.
    pub patterns_in_place: usize,
    /// The terms of those items: they are there by name only.
    pub named: HashSet<usize>,
    /// Whether each term stands inside the one that refers to it.
    pub nested: Vec<bool>,
}

impl Nesting {
    pub fn of(program: &Program) -> Nesting {
        let patterns_in_place = patterns_in_place(program);
        let named: HashSet<usize> = program.patterns[patterns_in_place..]
            .iter()
            .flat_map(|pattern| pattern.exprs.iter().copied())
            .collect();
        let mut nested = vec![false; program.terms.len()];
        // The terms so far that stand in no other one, the newest last.
        let mut outermost: Vec<usize> = Vec::new();
        for term in 0..program.terms.len() {
            let children = text_children(program, term, patterns_in_place);
            for child in children.into_iter().rev() {
                if outermost.last() == Some(&child) && !named.contains(&child) {
                    outermost.pop();
                    nested[child] = true;
                }
            }
            outermost.push(term);
        }
        Nesting {
            patterns_in_place,
            named,
            nested,
        }
    }
}

/// Patterns in place are recorded in the order of their quantifiers, each
/// once; where the listings are not so, no pattern stands in place.
fn patterns_in_place(program: &Program) -> usize {
    let mut count = 0;
    for term in &program.terms {
        let RExpr::QuantifierExpr { patterns, .. } = term else {
            continue;
        };
        for pattern in patterns {
            if *pattern != count {
                return 0;
            }
            count += 1;
        }
    }
    count
}

/// A term's children in the order of the text: a quantifier's patterns stand
/// behind its body.
fn text_children(program: &Program, term: usize, patterns_in_place: usize) -> Vec<usize> {
    match &program.terms[term] {
        RExpr::QuantifierExpr { patterns, body, .. } => {
            let in_place = patterns.iter().filter(|p| **p < patterns_in_place);
            let hints = in_place.flat_map(|pattern| program.patterns[*pattern].exprs.iter());
            [body].into_iter().chain(hints).copied().collect()
        }
        _ => program.children(term),
    }
}
