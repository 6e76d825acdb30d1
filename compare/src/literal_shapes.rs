//! What the literals on the way to a node met, from the book and the image, so
//! that a comparison can tell what it never met. A literal term on the way
//! that holds no level was found at the term of its name that holds one.

use crate::image_places::{level, LITERALS};
use leskofar_reference::image::Kind;
use leskofar_reference::lower::{custom_literal_to_sexpr_name, TAG};
use leskofar_reference::program::{Program, RExpr, SType};
use std::collections::{BTreeMap, BTreeSet};

pub const IS_TAG: &str = "%tag";
pub const DECLARED: &str = "declared";
pub const BY_AN_AXIOM: &str = "declared by an axiom";
pub const FOUND_LOWER: &str = "found at a lower term";
pub const FOUND_HIGHER: &str = "found at a higher term";
pub const FOUND_LAST: &str = "found at the last literal";
pub const SAME_PLACE: &str = "found at the same place";
pub const OTHER_PLACE: &str = "found at another place";
pub const OTHER_SPLIT: &str = "found by another split";
pub const OTHER_TYPE: &str = "found by another type of the same name";

/// The literal terms of a term, in the order of the walk.
pub fn literals_of(program: &Program, term: usize) -> Vec<usize> {
    if let RExpr::CustomLiteral { .. } = program.terms[term] {
        return vec![term];
    }
    let children = program.children(term).into_iter();
    children
        .flat_map(|child| literals_of(program, child))
        .collect()
}

/// A literal's text and type, and its whole name, which `%tag` has none of.
fn literal<'b>(program: &Program<'b>, term: usize) -> (&'b [u8], SType, Option<Vec<u8>>) {
    let RExpr::CustomLiteral { s, typ } = program.terms[term] else {
        unreachable!("the term is a literal");
    };
    let name = (s != TAG).then(|| custom_literal_to_sexpr_name(program, s, typ));
    (s, typ, name)
}

/// The whole name of a literal term, which `%tag` has none of.
pub fn whole_name(program: &Program, term: usize) -> Option<Vec<u8>> {
    literal(program, term).2
}

/// Visits the shapes of the literals on the way to a node, by the image there.
pub fn visit(program: &Program, node: usize, image: &[u8], see: &mut impl FnMut(&'static str)) {
    let nodes = program.path(node).into_iter();
    let premises = nodes.filter_map(|node| program.node(node));
    let walked: BTreeSet<usize> = premises
        .flat_map(|node| literals_of(program, node.expr))
        .collect();
    let is_declared = |term: &usize| level(Kind::Wide, image, LITERALS.start + term) != 0;
    let declaring: BTreeMap<Vec<u8>, usize> = (0..program.terms.len())
        .filter(is_declared)
        .filter_map(|term| whole_name(program, term).map(|name| (name, term)))
        .collect();
    let is_literal = |term: &usize| matches!(program.terms[*term], RExpr::CustomLiteral { .. });
    let last = (0..program.terms.len()).rev().find(is_literal);
    for term in declaring.values() {
        let by_axiom = !walked.contains(term);
        see(if by_axiom { BY_AN_AXIOM } else { DECLARED });
    }
    for term in walked {
        let (_, _, Some(name)) = literal(program, term) else {
            see(IS_TAG);
            continue;
        };
        match declaring.get(&name) {
            Some(found) if *found != term => {
                found_at(program, term, *found, see);
                if last == Some(*found) {
                    see(FOUND_LAST);
                }
            }
            _ => {}
        }
    }
}

/// A literal that was found at another term.
fn found_at(program: &Program, term: usize, found: usize, see: &mut impl FnMut(&'static str)) {
    let (s, typ, _) = literal(program, term);
    let (other, other_typ, _) = literal(program, found);
    let is_lower = found < term;
    see(if is_lower { FOUND_LOWER } else { FOUND_HIGHER });
    see(if s != other {
        OTHER_SPLIT
    } else if typ != other_typ {
        OTHER_TYPE
    } else if s.as_ptr() == other.as_ptr() {
        SAME_PLACE
    } else {
        OTHER_PLACE
    });
}
