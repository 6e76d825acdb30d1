//! A book that is being extended: the records received, and new ones behind
//! them. It may hold more than a book can; counts are exact.

use crate::book::{kind, Book, Section, CONSTANT_FIELDS, CONTEXT_FIELDS, NAME_FIELDS, TERM_FIELDS};
use crate::maker::Maker;

/// The operator of `RExpr.Eq`.
const EQ: &[u8] = b"=";
/// The range of no letters and of no entries.
const EMPTY: [u32; 2] = [0, 0];

pub struct Draft(Maker);

impl Draft {
    /// None for bytes that can't hold a table of contents.
    pub fn of(book: &[u8]) -> Option<Draft> {
        Book::new(book).map(|book| Draft(Maker::of(book)))
    }

    pub fn is_within_limits(&self) -> bool {
        let mut sections = Section::ALL.into_iter();
        sections.all(|section| self.0.count(section) <= section.most())
    }

    /// The bytes of a book within its limits.
    pub fn book(&self) -> Vec<u8> {
        self.0.book()
    }

    /// A new name. A text whose length has more than 32 bits is over the limit
    /// of letters, so that its record is never read.
    pub fn name(&mut self, text: &[u8]) -> u32 {
        let name: [u32; NAME_FIELDS] = if text.is_empty() {
            EMPTY
        } else {
            [self.0.letters.len() as u32, text.len() as u32]
        };
        self.0.letters.extend_from_slice(text);
        push(&mut self.0.names, name)
    }

    /// The first name with a text, or a new one.
    pub fn name_with(&mut self, text: &[u8]) -> u32 {
        let has_text = |[start, length]: &[u32; NAME_FIELDS]| {
            let [start, length] = [*start as usize, *length as usize];
            self.0.letters[start..start + length] == *text
        };
        match self.0.names.iter().position(has_text) {
            Some(name) => name as u32,
            None => self.name(text),
        }
    }

    pub fn constant(&mut self, constant: [u32; CONSTANT_FIELDS]) -> u32 {
        push(&mut self.0.constants, constant)
    }

    /// Start and count of new entries.
    pub fn list(&mut self, entries: &[u32]) -> [u32; 2] {
        if entries.is_empty() {
            return EMPTY;
        }
        self.0.list(entries)
    }

    pub fn term(&mut self, term: [u32; TERM_FIELDS]) -> u32 {
        push(&mut self.0.terms, term)
    }

    pub fn truth(&mut self) -> u32 {
        self.0.boolean(true)
    }

    /// `RExpr.Eq` of a constant's identifier and a term.
    pub fn equality(&mut self, constant: u32, term: u32) -> u32 {
        let eq = self.name_with(EQ);
        let id = self.0.id(constant);
        let [start, count] = self.list(&[id, term]);
        self.term([kind::BUILT_IN, eq, start, count, 0, 0, 0])
    }

    /// Gives the node number.
    pub fn context(&mut self, context: [u32; CONTEXT_FIELDS]) -> u32 {
        push(&mut self.0.contexts, context) + 1
    }
}

/// Adds a record and gives its number.
fn push<T>(records: &mut Vec<T>, record: T) -> u32 {
    records.push(record);
    records.len() as u32 - 1
}
