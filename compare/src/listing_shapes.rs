//! What a listing has in it, so that a comparison can tell what it never met.
//! The kinds of the terms are in `shapes`.

use crate::shapes::visit;
use leskofar_reference::book_test::MOST_DEPTH;
use leskofar_reference::program::{Program, RExpr};

const NO_PREMISE: &str = "no premise";
const SEVERAL_PREMISES: &str = "several premises";
const DEEPEST: &str = "deepest node";
const GOAL_IS_A_PREMISE: &str = "goal that is a premise";
const GOAL_IS_A_CHILD: &str = "goal inside another term";

const NO_LITERAL_TEXT: &str = "literal without text";
const SPACED_TYPE: &str = "literal of a type with a space";
const SEVERAL_ARGUMENTS: &str = "several arguments";
const SEVERAL_VARIABLES: &str = "several variables";
const VARIABLE_TWICE: &str = "the same variable twice";
const BARE: &str = "neither variables nor patterns";
const ONLY_PATTERNS: &str = "patterns without variables";
const SEVERAL_PATTERNS: &str = "several patterns";
const SEVERAL_PATTERN_TERMS: &str = "several terms of a pattern";
pub const LISTING_SHAPES: [&str; 14] = [
    NO_PREMISE,
    SEVERAL_PREMISES,
    DEEPEST,
    GOAL_IS_A_PREMISE,
    GOAL_IS_A_CHILD,
    NO_LITERAL_TEXT,
    SPACED_TYPE,
    SEVERAL_ARGUMENTS,
    SEVERAL_VARIABLES,
    VARIABLE_TWICE,
    BARE,
    ONLY_PATTERNS,
    SEVERAL_PATTERNS,
    SEVERAL_PATTERN_TERMS,
];

/// Visits the shapes of a listing and of every part of its terms.
pub fn visit_listing(
    program: &Program,
    node: usize,
    goal: usize,
    see: &mut impl FnMut(&'static str),
) {
    let path = program.path(node);
    let premises: Vec<usize> = path
        .iter()
        .filter_map(|node| program.node(*node))
        .map(|context| context.expr)
        .collect();
    let is_inside = |term: usize| program.children(term).contains(&goal);
    for (holds, shape) in [
        (premises.is_empty(), NO_PREMISE),
        (premises.len() > 1, SEVERAL_PREMISES),
        (premises.len() == MOST_DEPTH, DEEPEST),
        (premises.contains(&goal), GOAL_IS_A_PREMISE),
        ((0..program.terms.len()).any(is_inside), GOAL_IS_A_CHILD),
    ] {
        if holds {
            see(shape);
        }
    }
    for term in premises.into_iter().chain([goal]) {
        visit(program, term, see);
        visit_parts(program, term, see);
    }
}

/// Visits what is rare in a term and in those inside it.
fn visit_parts(program: &Program, term: usize, see: &mut impl FnMut(&'static str)) {
    match &program.terms[term] {
        RExpr::CustomLiteral { s, typ } => {
            if s.is_empty() {
                see(NO_LITERAL_TEXT);
            }
            if typ.text(program).contains(&b' ') {
                see(SPACED_TYPE);
            }
        }
        RExpr::FuncAppl { args, .. } if args.len() > 1 => see(SEVERAL_ARGUMENTS),
        RExpr::QuantifierExpr { vv, patterns, .. } => visit_quantifier(program, vv, patterns, see),
        _ => {}
    }
    for child in program.children(term) {
        visit_parts(program, child, see);
    }
}

fn visit_quantifier(
    program: &Program,
    vv: &[usize],
    patterns: &[usize],
    see: &mut impl FnMut(&'static str),
) {
    let has_several = |pattern: &usize| program.patterns[*pattern].exprs.len() > 1;
    for (holds, shape) in [
        (vv.len() > 1, SEVERAL_VARIABLES),
        (vv.windows(2).any(|two| two[0] == two[1]), VARIABLE_TWICE),
        (vv.is_empty() && patterns.is_empty(), BARE),
        (vv.is_empty() && !patterns.is_empty(), ONLY_PATTERNS),
        (patterns.len() > 1, SEVERAL_PATTERNS),
        (patterns.iter().any(has_several), SEVERAL_PATTERN_TERMS),
    ] {
        if holds {
            see(shape);
        }
    }
}
