//! Where the records of a plan's book stand in its text.

use crate::book::FIRST_USER_TYPE;
use crate::plan::complaint::{Complaint, Record};
use crate::plan::error::{PlanError, Position};
use crate::plan::syntax::{ItemKind, Name, Place, Syntax};

pub struct Places<'s> {
    syntax: &'s Syntax,
    /// The place of each term record.
    terms: Vec<Place>,
    types: Vec<Position>,
    constants: Vec<Position>,
    functions: Vec<Position>,
    /// Of the terms of nodes, axioms and goals.
    nodes: Vec<Position>,
    axioms: Vec<Position>,
    goals: Vec<Position>,
}

impl<'s> Places<'s> {
    /// `numbers` has the number of the term at each place.
    pub fn of(syntax: &'s Syntax, numbers: &[u32]) -> Places<'s> {
        let mut places = Places {
            syntax,
            terms: Vec::new(),
            types: Vec::new(),
            constants: Vec::new(),
            functions: Vec::new(),
            nodes: Vec::new(),
            axioms: Vec::new(),
            goals: Vec::new(),
        };
        for (place, number) in numbers.iter().enumerate() {
            // Where a named term is used again its number is an earlier one.
            if *number as usize == places.terms.len() {
                places.terms.push(place);
            }
        }
        for item in &syntax.items {
            places.add(&item.kind);
        }
        places
    }

    fn add(&mut self, item: &ItemKind) {
        let term_at = |term: Place| self.syntax.terms[term].at;
        match item {
            ItemKind::Type { name, given } => self.types.push(seen_at(name, given)),
            ItemKind::Constant { name, given, .. } => self.constants.push(seen_at(name, given)),
            ItemKind::Function { name, given, .. } => self.functions.push(seen_at(name, given)),
            ItemKind::Axiom { name, term, .. } => self.axioms.push(term.map_or(name.at, term_at)),
            ItemKind::Node { term, .. } => self.nodes.push(term_at(*term)),
            ItemKind::Goal { term, .. } => self.goals.push(term_at(*term)),
            ItemKind::Letters { .. }
            | ItemKind::Lists { .. }
            | ItemKind::Pattern { .. }
            | ItemKind::Term { .. } => {}
        }
    }

    pub fn error(&self, complaint: &Complaint) -> PlanError {
        let show = |other: Record| {
            let (word, _) = other.word_and_number();
            format!("the {word} at {}", self.at(other, None))
        };
        PlanError {
            at: self.at(complaint.record, complaint.part),
            expected: complaint.expected.clone(),
            found: complaint.found(show),
        }
    }

    fn at(&self, record: Record, part: Option<usize>) -> Position {
        match record {
            Record::Type(number) => self.types[number - FIRST_USER_TYPE as usize],
            Record::Constant(number) => self.constants[number],
            Record::Function(number) => self.functions[number],
            Record::Node(number) => self.nodes[number - 1],
            Record::Axiom(number) => self.axioms[number],
            Record::Goal(number) => self.goals[number],
            Record::Term(number) => {
                let term = &self.syntax.terms[self.terms[number]];
                let part = part.and_then(|part| term.kind.parts().get(part).copied());
                part.map_or(term.at, |part| self.syntax.terms[part].at)
            }
        }
    }
}

/// Where the name stands that the solver sees.
fn seen_at(name: &Name, given: &Option<Name>) -> Position {
    given.as_ref().unwrap_or(name).at
}
