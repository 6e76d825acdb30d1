//! The names of a plan, and what they stand for.

use crate::book::{BOOL, FIRST_USER_TYPE, INT};
use crate::plan::error::{refuse, Position, Result};
use crate::plan::syntax::{book_name, ItemKind, Name, Syntax, Term};
use crate::plan::words::{
    is_operator, is_reserved_node, is_reserved_symbol, is_reserved_type, BOOL_TYPE, INT_TYPE,
    LITERAL_SEPARATOR, ROOT_NODE,
};
use crate::program::{SType, ROOT};
use std::collections::HashMap;

/// What a name in a term stands for.
#[derive(Clone, Copy)]
pub enum Symbol {
    Constant(u32),
    Function(u32),
    Term(u32),
    Operator,
}

/// The names of one kind, and how an unknown one's error calls them.
struct Names<'p, T> {
    sought: &'static str,
    is_reserved: fn(&str) -> bool,
    declared: HashMap<&'p str, (Position, T)>,
}

impl<'p, T: Copy> Names<'p, T> {
    fn new(sought: &'static str, is_reserved: fn(&str) -> bool) -> Names<'p, T> {
        Names {
            sought,
            is_reserved,
            declared: HashMap::new(),
        }
    }

    fn declare(&mut self, name: &'p Name, value: T) -> Result<()> {
        let refused = |why: String| {
            let found = format!("{}, {why}", name.quoted());
            refuse(name.at, "a new name", found)
        };
        if (self.is_reserved)(&name.text) {
            return refused("a reserved word".into());
        }
        if let Some((at, _)) = self.declared.get(name.text.as_str()) {
            return refused(format!("declared at {at}"));
        }
        self.declared.insert(&name.text, (name.at, value));
        Ok(())
    }

    fn find(&self, name: &Name) -> Result<T> {
        match self.declared.get(name.text.as_str()) {
            Some((_, value)) => Ok(*value),
            None => unknown(name, self.sought),
        }
    }
}

fn unknown<T>(name: &Name, sought: &str) -> Result<T> {
    refuse(name.at, sought, name.quoted())
}

/// Types, constants, functions, axioms and patterns are known in the whole
/// text; terms and nodes from where they are declared on, since whatever
/// uses them comes later in the book.
pub struct Scope<'p> {
    types: Names<'p, u32>,
    /// By the name that the book has; the first of those that share one.
    types_of_literals: HashMap<String, u32>,
    /// Of each constant; a type may be declared behind it.
    constant_types: Vec<&'p Name>,
    symbols: Names<'p, Symbol>,
    axioms: Names<'p, u32>,
    patterns: Names<'p, u32>,
    nodes: Names<'p, u32>,
    goals: Names<'p, ()>,
}

impl<'p> Scope<'p> {
    pub fn of(syntax: &'p Syntax) -> Result<Scope<'p>> {
        let none = |_: &str| false;
        let mut scope = Scope {
            types: Names::new("a type", is_reserved_type),
            types_of_literals: HashMap::from([
                (SType::BOOL_IN_LITERAL.into(), BOOL),
                (SType::INT_IN_LITERAL.into(), INT),
            ]),
            constant_types: Vec::new(),
            symbols: Names::new("a constant, function or term above", is_reserved_symbol),
            axioms: Names::new("an axiom", none),
            patterns: Names::new("a pattern", none),
            nodes: Names::new("a node above", is_reserved_node),
            goals: Names::new("a goal", none),
        };
        let (mut types, mut functions, mut axioms) = (FIRST_USER_TYPE, 0, 0);
        let (mut patterns, mut terms_start) = (0, 0);
        for item in &syntax.items {
            // A pattern that is an item is recorded behind those in its terms.
            let terms = &syntax.terms[terms_start..item.terms_end];
            patterns += terms.iter().map(Term::patterns_in_place).sum::<usize>() as u32;
            terms_start = item.terms_end;
            match &item.kind {
                ItemKind::Type { name, given } => {
                    let number = next(&mut types);
                    scope.types.declare(name, number)?;
                    let text = book_name(name, given.as_ref());
                    scope.types_of_literals.entry(text).or_insert(number);
                }
                ItemKind::Constant { name, typ, .. } => {
                    let number = scope.constant_types.len() as u32;
                    scope.symbols.declare(name, Symbol::Constant(number))?;
                    scope.constant_types.push(typ);
                }
                ItemKind::Function { name, .. } => {
                    let number = Symbol::Function(next(&mut functions));
                    scope.symbols.declare(name, number)?;
                }
                ItemKind::Axiom { name, .. } => scope.axioms.declare(name, next(&mut axioms))?,
                ItemKind::Pattern { name, .. } => {
                    scope.patterns.declare(name, next(&mut patterns))?;
                }
                ItemKind::Letters { .. }
                | ItemKind::Lists { .. }
                | ItemKind::Term { .. }
                | ItemKind::Node { .. }
                | ItemKind::Goal { .. } => {}
            }
        }
        Ok(scope)
    }

    pub fn typ(&self, name: &Name) -> Result<u32> {
        match name.text.as_str() {
            BOOL_TYPE => Ok(BOOL),
            INT_TYPE => Ok(INT),
            _ => self.types.find(name),
        }
    }

    pub fn symbol(&self, name: &Name) -> Result<Symbol> {
        if is_operator(&name.text) {
            return Ok(Symbol::Operator);
        }
        self.symbols.find(name)
    }

    /// A literal as it is printed: `|red:Shade|`, if nothing else is called
    /// so. Of several colons the last that stands before a type counts.
    pub fn printed_literal<'n>(&self, name: &'n Name) -> Option<(&'n str, u32)> {
        if self.symbol(name).is_ok() {
            return None;
        }
        let colons = name.text.rmatch_indices(LITERAL_SEPARATOR);
        let mut literals = colons.filter_map(|(colon, _)| {
            let typ = &name.text[colon + LITERAL_SEPARATOR.len()..];
            let typ = self.types_of_literals.get(typ)?;
            Some((&name.text[..colon], *typ))
        });
        literals.next()
    }

    pub fn constant(&self, name: &Name) -> Result<u32> {
        match self.symbol(name) {
            Ok(Symbol::Constant(constant)) => Ok(constant),
            _ => unknown(name, "a constant"),
        }
    }

    pub fn type_of(&self, constant: u32) -> &'p Name {
        self.constant_types[constant as usize]
    }

    pub fn function(&self, name: &Name) -> Result<u32> {
        match self.symbol(name) {
            Ok(Symbol::Function(function)) => Ok(function),
            _ => unknown(name, "a function"),
        }
    }

    pub fn axiom(&self, name: &Name) -> Result<u32> {
        self.axioms.find(name)
    }

    pub fn pattern(&self, name: &Name) -> Result<u32> {
        self.patterns.find(name)
    }

    pub fn node(&self, name: &Name) -> Result<u32> {
        match name.text.as_str() {
            ROOT_NODE => Ok(ROOT as u32),
            _ => self.nodes.find(name),
        }
    }

    pub fn declare_term(&mut self, name: &'p Name, term: u32) -> Result<()> {
        self.symbols.declare(name, Symbol::Term(term))
    }

    pub fn declare_node(&mut self, name: &'p Name, node: u32) -> Result<()> {
        self.nodes.declare(name, node)
    }

    pub fn declare_goal(&mut self, name: &'p Name) -> Result<()> {
        self.goals.declare(name, ())
    }
}

/// Gives a count and raises it.
fn next(count: &mut u32) -> u32 {
    *count += 1;
    *count - 1
}
