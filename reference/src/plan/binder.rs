//! From the syntax of a plan to its book and goals. Text order gives record
//! order; whatever the book test would refuse is an error here, with its
//! place.

use crate::book::NO_TERM;
use crate::book_test::MOST_DEPTH;
use crate::maker::Maker;
use crate::plan::error::{refuse, Position, Result};
use crate::plan::packing::Packer;
use crate::plan::scope::{Scope, Symbol};
use crate::plan::syntax::{book_name, Item, ItemKind, Name, Place, Syntax, Term, TermKind};
use crate::plan::Goal;
use std::collections::HashMap;

/// A plan's book and goals, and the number of the term at each place.
pub struct Bound {
    pub maker: Maker,
    pub goals: Vec<Goal>,
    pub numbers: Vec<u32>,
}

pub fn bind(syntax: &Syntax) -> Result<Bound> {
    let mut binder = Binder {
        scope: Scope::of(syntax)?,
        packer: Packer::default(),
        terms: &syntax.terms,
        numbers: Vec::new(),
        referred: HashMap::new(),
        named_patterns: HashMap::new(),
        listings: Vec::new(),
        depths: vec![0],
        goals: Vec::new(),
    };
    for item in &syntax.items {
        binder.terms_up_to(item.terms_end)?;
        binder.item(item)?;
    }
    binder.check_listings()?;
    Ok(Bound {
        maker: binder.packer.maker,
        goals: binder.goals,
        numbers: binder.numbers,
    })
}

pub(super) struct Binder<'p> {
    pub(super) scope: Scope<'p>,
    pub(super) packer: Packer,
    pub(super) terms: &'p [Term],
    /// The term number of each place so far.
    pub(super) numbers: Vec<u32>,
    /// Where each term is referred to.
    referred: HashMap<u32, Position>,
    /// The terms of the patterns that are items.
    named_patterns: HashMap<u32, &'p [Place]>,
    /// Where quantifiers list such patterns; they may do so before the item.
    pub(super) listings: Vec<Listing>,
    /// The depth of each node.
    depths: Vec<usize>,
    goals: Vec<Goal>,
}

pub(super) struct Listing {
    pub at: Position,
    pub pattern: u32,
    pub quantifier: u32,
}

impl<'p> Binder<'p> {
    fn item(&mut self, item: &'p Item) -> Result<()> {
        match &item.kind {
            ItemKind::Letters { at, letters } => {
                let letters = letters.as_bytes();
                self.packer.maker.letters.extend_from_slice(letters);
                self.packer.check_limits(*at)
            }
            ItemKind::Lists { at, numbers } => {
                self.packer.maker.lists.extend_from_slice(numbers);
                self.packer.check_limits(*at)
            }
            ItemKind::Type { name, given } => {
                let book_name = self.book_name(name, given);
                self.packer.maker.types.push([book_name]);
                self.packer.check_limits(name.at)
            }
            ItemKind::Constant { name, typ, given } => {
                let record = [self.book_name(name, given), self.scope.typ(typ)?];
                self.packer.maker.constants.push(record);
                self.packer.check_limits(name.at)
            }
            ItemKind::Function {
                name,
                inputs,
                typ,
                given,
                explained_by,
            } => {
                let book_name = self.book_name(name, given);
                let inputs = numbers(inputs, |input| self.scope.typ(input))?;
                let axioms = numbers(explained_by, |axiom| self.scope.axiom(axiom))?;
                let typ = self.scope.typ(typ)?;
                let [inputs, input_count] = self.packer.list(&inputs);
                let [axioms, axiom_count] = self.packer.list(&axioms);
                let record = [book_name, typ, inputs, input_count, axioms, axiom_count];
                self.packer.maker.functions.push(record);
                self.packer.check_limits(name.at)
            }
            ItemKind::Axiom {
                name,
                term,
                explains,
            } => {
                let term = match term {
                    None => NO_TERM,
                    Some(term) => self.referred_term(*term)?,
                };
                let explains = numbers(explains, |function| self.scope.function(function))?;
                let [start, count] = self.packer.list(&explains);
                self.packer.maker.axioms.push([term, start, count]);
                self.packer.check_limits(name.at)
            }
            ItemKind::Pattern { name, terms } => {
                // Its terms are referred to only where a quantifier lists it.
                let numbers: Vec<u32> = terms.iter().map(|term| self.numbers[*term]).collect();
                let number = self.new_pattern(&numbers);
                self.named_patterns.insert(number, terms);
                self.packer.check_limits(name.at)
            }
            ItemKind::Term { name, term } => self.named_term(name, *term),
            ItemKind::Node {
                name,
                parent,
                term,
                trace,
            } => self.node(name, parent, *term, trace.as_deref()),
            ItemKind::Goal { name, node, term } => {
                self.scope.declare_goal(name)?;
                self.goals.push(Goal {
                    name: name.text.clone(),
                    node: self.scope.node(node)?,
                    term: self.numbers[*term],
                });
                Ok(())
            }
        }
    }

    /// The number of the name that the book has.
    fn book_name(&mut self, name: &Name, given: &Option<Name>) -> u32 {
        let text = book_name(name, given.as_ref());
        self.packer.name(&text)
    }

    fn named_term(&mut self, name: &'p Name, term: Place) -> Result<()> {
        if let TermKind::Name(other) = &self.terms[term].kind {
            if let Ok(Symbol::Term(_)) = self.scope.symbol(other) {
                let found = format!("the name {} of one", other.quoted());
                return refuse(other.at, "a term of its own", found);
            }
        }
        self.scope.declare_term(name, self.numbers[term])
    }

    fn node(
        &mut self,
        name: &'p Name,
        parent: &Name,
        term: Place,
        trace: Option<&str>,
    ) -> Result<()> {
        let parent = self.scope.node(parent)?;
        let depth = self.depths[parent as usize] + 1;
        if depth > MOST_DEPTH {
            let expected = format!("a node at most {MOST_DEPTH} deep");
            return refuse(name.at, expected, format!("depth {depth}"));
        }
        let term = self.referred_term(term)?;
        // A trace is stored as its name's number plus one.
        let trace = trace.map_or(0, |trace| self.packer.name(trace) + 1);
        self.packer.maker.contexts.push([parent, term, trace]);
        self.packer.check_limits(name.at)?;
        self.scope.declare_node(name, self.depths.len() as u32)?;
        self.depths.push(depth);
        Ok(())
    }

    /// A term's number, which from now on is referred to.
    pub(super) fn referred_term(&mut self, term: Place) -> Result<u32> {
        let (number, at) = (self.numbers[term], self.terms[term].at);
        self.refer(number, at, "a term that nothing else refers to")?;
        Ok(number)
    }

    fn refer(&mut self, term: u32, at: Position, expected: &str) -> Result<()> {
        match self.referred.insert(term, at) {
            None => Ok(()),
            Some(before) => {
                let found = format!("one that is referred to at {before}");
                refuse(at, expected, found)
            }
        }
    }

    /// A listed pattern's terms stand above the quantifier, and nothing else
    /// refers to them.
    fn check_listings(&mut self) -> Result<()> {
        const UNREFERRED: &str = "a pattern whose terms nothing else refers to";
        for listing in std::mem::take(&mut self.listings) {
            let terms = self.named_patterns.get(&listing.pattern);
            for term in *terms.unwrap_or(&&[][..]) {
                let number = self.numbers[*term];
                if number >= listing.quantifier {
                    let at = listing.at;
                    let above = format!("a term above the quantifier that lists it at {at}");
                    return refuse(self.terms[*term].at, above, "one below");
                }
                self.refer(number, listing.at, UNREFERRED)?;
            }
        }
        Ok(())
    }
}

/// The numbers that names stand for.
fn numbers(names: &[Name], number: impl Fn(&Name) -> Result<u32>) -> Result<Vec<u32>> {
    names.iter().map(number).collect()
}
