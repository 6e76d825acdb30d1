//! How a reader of SMT-LIB is to understand a book's text: by its operators, and
//! by what its names mean.

use leskofar_reference::lower::TAG;
use leskofar_reference::program::{Program, RExpr, ROperator};
use leskofar_reference::smtlib::signatures::signature;
use leskofar_reference::smtlib::words::is_for_solvers;
use std::collections::BTreeSet;

#[derive(Clone, Copy, Debug, PartialEq, Eq)]
pub enum Reading {
    /// Every name means one thing and takes as many arguments as it is given.
    Strict,
    /// Names may mean several things, or nothing that fits.
    Grammar,
}

/// None where an operator is not known: its name may be no token. Whatever types,
/// constants and functions are called, it is a symbol.
pub fn reading(program: &Program) -> Option<Reading> {
    let mut terms = program.terms.iter();
    if !terms.all(|term| has_known_operator(program, term)) {
        return None;
    }
    let symbols = Symbols::of(program);
    let mut terms = program.terms.iter();
    if symbols.mean_one_thing && terms.all(|term| is_applied_right(program, term)) {
        Some(Reading::Strict)
    } else {
        Some(Reading::Grammar)
    }
}

pub fn is_sane(program: &Program) -> bool {
    reading(program) == Some(Reading::Strict)
}

/// What a book's names stand for, bars around the whole not counted.
pub struct Symbols {
    pub sorts: BTreeSet<Vec<u8>>,
    pub functions: BTreeSet<Vec<u8>>,
    /// No two records share one, and none is a solver's own.
    mean_one_thing: bool,
}

impl Symbols {
    pub fn of(program: &Program) -> Symbols {
        let mut symbols = Symbols {
            sorts: BTreeSet::new(),
            functions: BTreeSet::new(),
            mean_one_thing: true,
        };
        for typ in &program.types {
            let name = without_bars(typ.name);
            let is_free = ![&b"Bool"[..], b"Int"].contains(&name) && !is_for_solvers(name);
            symbols.mean_one_thing &= symbols.sorts.insert(name.into()) && is_free;
        }
        let constants = program.constants.iter().map(|constant| constant.name);
        let functions = program.functions.iter().map(|function| function.name);
        for name in constants.chain(functions) {
            symbols.add_function(without_bars(name));
        }
        let mut literals = BTreeSet::new();
        for term in &program.terms {
            if let RExpr::CustomLiteral { s, typ } = term {
                let name = [s, &b":"[..], typ.text(program)].concat();
                if *s != TAG && literals.insert((name.clone(), *s)) {
                    symbols.add_function(&name);
                }
            }
        }
        symbols
    }

    fn add_function(&mut self, name: &[u8]) {
        let is_known =
            [&b"true"[..], b"false", b"ite"].contains(&name) || signature(name).is_some();
        let is_free = !is_known && !is_for_solvers(name);
        self.mean_one_thing &= self.functions.insert(name.into()) && is_free;
    }
}

fn without_bars(name: &[u8]) -> &[u8] {
    let between = name.strip_prefix(b"|").and_then(|n| n.strip_suffix(b"|"));
    between.unwrap_or(name)
}

fn has_known_operator(program: &Program, term: &RExpr) -> bool {
    match term {
        RExpr::FuncAppl {
            op: ROperator::BuiltInOperator(name),
            args,
        } => signature(name).is_some_and(|operator| {
            operator.least <= args.len() && operator.most.is_none_or(|most| args.len() <= most)
        }),
        // Without variables no pattern is printed.
        RExpr::QuantifierExpr { vv, patterns, .. } => {
            let mut patterns = patterns.iter();
            let is_empty = |pattern: &usize| program.patterns[*pattern].exprs.is_empty();
            vv.is_empty() || !patterns.any(is_empty)
        }
        _ => true,
    }
}

fn is_applied_right(program: &Program, term: &RExpr) -> bool {
    match term {
        RExpr::FuncAppl {
            op: ROperator::UserDefinedFunction(function),
            args,
        } => program.functions[*function].input_types.len() == args.len(),
        _ => true,
    }
}
