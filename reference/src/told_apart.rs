//! Whether a book's symbols can be told apart by what is printed of them, bars
//! around a whole name not counted: over every record, used or not.

use crate::book_test::check;
use crate::lower::TAG;
use crate::program::{Program, RExpr, ROperator, SType};
use crate::term_symbols::{operator_name, Symbol};
use std::collections::{HashMap, HashSet};

/// As document 02 has it: besides, literals of one text have one type, also
/// where they print differently.
pub fn told_apart(program: &Program) -> bool {
    prints_apart(program) && texts_have_one_type(program)
}

/// No two print alike, but for operators of one name, and for literals of one
/// text and one type.
pub fn prints_apart(program: &Program) -> bool {
    sorts_differ(program) && functions_differ(program)
}

/// The same of a book's bytes, which are to pass the book test.
pub fn does_print_apart(book: &[u8]) -> bool {
    check(book).is_ok_and(|program| prints_apart(&program))
}

fn texts_have_one_type(program: &Program) -> bool {
    let mut types = HashMap::new();
    let mut literals = program.terms.iter().filter_map(|term| match term {
        RExpr::CustomLiteral { s, typ } if *s != TAG => Some((*s, *typ)),
        _ => None,
    });
    literals.all(|(s, typ)| *types.entry(s).or_insert(typ) == typ)
}

/// The user types, and the two that are built in.
fn sorts_differ(program: &Program) -> bool {
    let mut names = HashSet::from([b"Bool".to_vec(), b"Int".to_vec()]);
    (0..program.types.len()).all(|typ| names.insert(Symbol::Sort(typ).name(program)))
}

/// What may share its name with another of its kind: one that is equal.
#[derive(Clone, Copy, PartialEq)]
enum Meaning<'b> {
    Constant(usize),
    Function(usize),
    Literal { s: &'b [u8], typ: SType },
    Operator,
}

/// Constants, functions, literals and built-in operators.
fn functions_differ(program: &Program) -> bool {
    let constants = (0..program.constants.len())
        .map(|v| (Symbol::Constant(v).name(program), Meaning::Constant(v)));
    let functions = (0..program.functions.len())
        .map(|f| (Symbol::Function(f).name(program), Meaning::Function(f)));
    let terms = program.terms.iter();
    let of_terms = terms.filter_map(|term| of_term(program, term));
    let mut meanings = HashMap::new();
    let mut all = constants.chain(functions).chain(of_terms);
    all.all(|(name, meaning)| *meanings.entry(name).or_insert(meaning) == meaning)
}

/// What a term prints by itself; `%tag` is never declared.
fn of_term<'b>(program: &Program<'b>, term: &RExpr<'b>) -> Option<(Vec<u8>, Meaning<'b>)> {
    match term {
        RExpr::CustomLiteral { s, typ } if *s != TAG => {
            let (s, typ) = (*s, *typ);
            Some((Symbol::Literal { s, typ }.name(program), Meaning::Literal { s, typ }))
        }
        RExpr::FuncAppl {
            op: ROperator::BuiltInOperator(name),
            ..
        } => Some((operator_name(name).to_vec(), Meaning::Operator)),
        _ => None,
    }
}
