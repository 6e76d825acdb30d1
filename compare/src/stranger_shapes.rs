//! What the live lines of a book that prints apart had, so that a comparison can tell
//! what it never met.

use crate::session_shapes::Names;
use leskofar_reference::live_lines::{Command, LiveLines};
use leskofar_reference::program::{Program, RExpr, SType};
use leskofar_reference::strangers::{Asserted, Look};
use leskofar_reference::term_symbols::Symbol;
use std::collections::{HashMap, HashSet};

const BOUND_AND_FREE: &str = "constant bound and free";
const LITERAL_AGAIN: &str = "literal at several levels";
const TWO_TYPES: &str = "text of literals of two types";
const AXIOM: &str = "axiom";
const OF_AXIOMS_ALONE: &str = "symbol of axioms alone";
const PATTERN: &str = "pattern";
const HIDDEN_PATTERN: &str = "pattern that is not printed";
const VARIABLE: &str = "quantified variable of a user type";
const LET_VARIABLE: &str = "let variable of a user type";
const OF_GOAL: &str = "declared for a goal";
const AGAIN: &str = "declared again";
const BOTH_SPACES: &str = "sort and constant of one name";
const BARS: &str = "name between bars";
const BLANK: &str = "name with a blank";
const COLON: &str = "name with a colon";
pub const SHAPES: [&str; 15] = [
    BOUND_AND_FREE,
    LITERAL_AGAIN,
    TWO_TYPES,
    AXIOM,
    OF_AXIOMS_ALONE,
    PATTERN,
    HIDDEN_PATTERN,
    VARIABLE,
    LET_VARIABLE,
    OF_GOAL,
    AGAIN,
    BOTH_SPACES,
    BARS,
    BLANK,
    COLON,
];

/// A moment that was looked at, with the declarations that were live before.
pub struct LookedAt<'s, 'b> {
    pub program: &'s Program<'b>,
    pub live: &'s LiveLines,
    pub gone: &'s HashSet<Vec<u8>>,
    pub look: &'s Look<'b>,
}

impl LookedAt<'_, '_> {
    pub fn visit(&self, is_asked: bool, see: &mut impl FnMut(&'static str)) {
        let mut names = Names::default();
        for asserted in &self.look.assertions {
            names.add(self.program, asserted.term, &mut Vec::new());
            visit_binders(self.program, asserted.term, see);
        }
        let mut lines = self.live.lines().iter();
        let shapes = [
            (BOUND_AND_FREE, !names.bound.is_disjoint(&names.free)),
            (LITERAL_AGAIN, self.has_literal_again()),
            (TWO_TYPES, self.has_text_of_two_types()),
            (AXIOM, self.look.assertions.iter().any(|a| self.is_axiom(a))),
            (OF_AXIOMS_ALONE, self.has_symbol_of_axioms_alone()),
            (OF_GOAL, is_asked && self.declares_for_goal()),
            (AGAIN, lines.any(|line| self.gone.contains(&line.text))),
        ];
        see_met(shapes, see);
        self.visit_names(see);
    }

    fn is_axiom(&self, asserted: &Asserted) -> bool {
        let mut terms = self.program.axioms.iter().filter_map(|axiom| axiom.term);
        terms.any(|term| term == asserted.term)
    }

    fn has_literal_again(&self) -> bool {
        let has_at_another = |asserted: &Asserted, literal: &Symbol| {
            let mut others = self.look.assertions.iter();
            others.any(|a| a.level != asserted.level && a.found.symbols.contains(literal))
        };
        self.look.assertions.iter().any(|asserted| {
            let mut symbols = asserted.found.symbols.iter();
            symbols.any(|symbol| {
                matches!(symbol, Symbol::Literal { .. }) && has_at_another(asserted, symbol)
            })
        })
    }

    fn has_text_of_two_types(&self) -> bool {
        let mut types = HashMap::new();
        let symbols = self.look.assertions.iter().flat_map(|a| &a.found.symbols);
        let mut literals = symbols.filter_map(|symbol| match symbol {
            Symbol::Literal { s, typ } => Some((*s, *typ)),
            _ => None,
        });
        literals.any(|(s, typ)| *types.entry(s).or_insert(typ) != typ)
    }

    fn has_symbol_of_axioms_alone(&self) -> bool {
        let assertions = self.look.assertions.iter();
        let (axioms, others): (Vec<_>, Vec<_>) = assertions.partition(|a| self.is_axiom(a));
        let is_in_others = |symbol| others.iter().any(|a| a.found.symbols.contains(symbol));
        let mut symbols = axioms.iter().flat_map(|a| &a.found.symbols);
        symbols.any(|symbol| !is_in_others(symbol))
    }

    /// The level below the denial's holds what the goal declares.
    fn declares_for_goal(&self) -> bool {
        let of_goal = self.live.levels() - 2;
        self.live.at(of_goal).next().is_some()
    }

    fn visit_names(&self, see: &mut impl FnMut(&'static str)) {
        let mut sorts = HashSet::new();
        let mut functions = HashSet::new();
        for line in self.live.lines() {
            let (names, name, barred): (_, _, &[u8]) = match &line.command {
                Command::DeclareSort(name) => (&mut sorts, name, b"(declare-sort |"),
                Command::DeclareFun(name) => (&mut functions, name, b"(declare-fun |"),
                Command::Assert => continue,
            };
            names.insert(name);
            let shapes = [
                (BARS, line.text.starts_with(barred)),
                (BLANK, name.contains(&b' ')),
                (COLON, name.contains(&b':')),
            ];
            see_met(shapes, see);
        }
        if !sorts.is_disjoint(&functions) {
            see(BOTH_SPACES);
        }
    }
}

fn see_met<const N: usize>(shapes: [(&'static str, bool); N], see: &mut impl FnMut(&'static str)) {
    for (shape, is_met) in shapes {
        if is_met {
            see(shape);
        }
    }
}

/// What the lets and quantifiers of a term have.
fn visit_binders(program: &Program, term: usize, see: &mut impl FnMut(&'static str)) {
    let is_of_user_type = |v: &usize| matches!(program.constants[*v].typ, SType::SUserType(_));
    match &program.terms[term] {
        RExpr::LetExpr { v, .. } if is_of_user_type(v) => see(LET_VARIABLE),
        RExpr::QuantifierExpr { vv, patterns, .. } => {
            if vv.iter().any(is_of_user_type) {
                see(VARIABLE);
            }
            if !patterns.is_empty() {
                see(if vv.is_empty() {
                    HIDDEN_PATTERN
                } else {
                    PATTERN
                });
            }
        }
        _ => {}
    }
    for child in program.children(term) {
        visit_binders(program, child, see);
    }
}
