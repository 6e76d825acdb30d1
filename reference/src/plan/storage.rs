//! The letters and lists that a text has to give, because only overlapping
//! names and ranges let its book keep the limits.

use crate::book::{Book, Range, Section};
use crate::plan::layout::Piece;
use crate::plan::words::{string, text_of, LETTERS, LISTS};
use crate::program::{Program, RExpr, ROperator};
use std::collections::HashSet;

/// Where everything side by side is within the limits, nothing is given.
/// Else the book's own letters and entries: all names and ranges are in them.
pub fn needed_storage(book: Book, program: &Program) -> Vec<Piece> {
    let mut items = Vec::new();
    if letters_side_by_side(program) > Section::Letters.most() {
        let letters = string(&text_of(book.letters()));
        items.push(Piece::words([LETTERS, &letters]));
    }
    if entries_side_by_side(program) > Section::Lists.most() {
        let entries = book.entries(Range::new(0, book.count(Section::Lists)));
        let mut words = vec![Piece::word(LISTS)];
        words.extend(entries.map(|entry| Piece::word(entry.to_string())));
        items.push(Piece::row(words));
    }
    items
}

fn letters_side_by_side(program: &Program) -> usize {
    let mut names: HashSet<&[u8]> = HashSet::new();
    names.extend(program.types.iter().map(|typ| typ.name));
    names.extend(program.constants.iter().map(|constant| constant.name));
    names.extend(program.functions.iter().map(|function| function.name));
    names.extend(program.terms.iter().filter_map(|term| match term {
        RExpr::CustomLiteral { s, .. } => Some(*s),
        RExpr::FuncAppl {
            op: ROperator::BuiltInOperator(name),
            ..
        } => Some(*name),
        _ => None,
    }));
    names.extend(program.nodes().iter().filter_map(|node| node.trace_string));
    names.iter().map(|name| name.len()).sum()
}

fn entries_side_by_side(program: &Program) -> usize {
    let functions = program
        .functions
        .iter()
        .map(|function| function.input_types.len() + function.explained_by.len());
    let axioms = program.axioms.iter().map(|axiom| axiom.explains.len());
    let patterns = program.patterns.iter().map(|pattern| pattern.exprs.len());
    let terms = program.terms.iter().map(|term| match term {
        RExpr::FuncAppl { args, .. } => args.len(),
        RExpr::QuantifierExpr { vv, patterns, .. } => vv.len() + patterns.len(),
        _ => 0,
    });
    functions.chain(axioms).chain(patterns).chain(terms).sum()
}
