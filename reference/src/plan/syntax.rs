//! The syntax of a plan: what the text says, names not yet resolved.

use crate::plan::error::Position;
use crate::plan::words::{name_of_symbol, symbol};

/// A plan's items, and the terms of all of them in one row: in the order of
/// the text, children before their parents. That is the order of the book's
/// records too, so nothing has to go down a tree.
#[derive(Debug)]
pub struct Syntax {
    pub items: Vec<Item>,
    pub terms: Vec<Term>,
}

/// A name where the text has it.
#[derive(Clone, Debug)]
pub struct Name {
    pub at: Position,
    pub text: String,
}

impl Name {
    /// As errors have it.
    pub fn quoted(&self) -> String {
        format!("`{}`", symbol(&self.text))
    }
}

/// The name that the book has: the given one, else the plan's own.
pub fn book_name(name: &Name, given: Option<&Name>) -> String {
    match given {
        Some(given) => given.text.clone(),
        None => name_of_symbol(&name.text),
    }
}

/// A term's place in the row of terms.
pub type Place = usize;

#[derive(Debug)]
pub struct Item {
    pub kind: ItemKind,
    /// Where the item's terms end in the row; they begin where those of the
    /// item before end.
    pub terms_end: Place,
}

/// `given` is the name that the solver is to see, as it stands in its string,
/// if it is another than the plan's own.
#[derive(Debug)]
pub enum ItemKind {
    Letters {
        at: Position,
        letters: String,
    },
    Lists {
        at: Position,
        numbers: Vec<u32>,
    },
    Type {
        name: Name,
        given: Option<Name>,
    },
    Constant {
        name: Name,
        typ: Name,
        given: Option<Name>,
    },
    Function {
        name: Name,
        inputs: Vec<Name>,
        typ: Name,
        given: Option<Name>,
        explained_by: Vec<Name>,
    },
    Axiom {
        name: Name,
        term: Option<Place>,
        explains: Vec<Name>,
    },
    Pattern {
        name: Name,
        terms: Vec<Place>,
    },
    Term {
        name: Name,
        term: Place,
    },
    Node {
        name: Name,
        parent: Name,
        term: Place,
        trace: Option<String>,
    },
    Goal {
        name: Name,
        node: Name,
        term: Place,
    },
}

#[derive(Debug)]
pub struct Term {
    pub at: Position,
    pub kind: TermKind,
}

#[derive(Debug)]
pub enum TermKind {
    Boolean(bool),
    Integer(i64),
    Literal {
        s: String,
        typ: Name,
    },
    /// A constant, a named term, or a function or operator without arguments.
    Name(Name),
    Application {
        head: Name,
        args: Vec<Place>,
    },
    BuiltIn {
        operator: String,
        args: Vec<Place>,
    },
    IfThenElse([Place; 3]),
    Let {
        variable: Name,
        rhs: Place,
        body: Place,
    },
    Quantifier {
        univ: bool,
        variables: Vec<Variable>,
        body: Place,
        patterns: Vec<Pattern>,
    },
}

#[derive(Debug)]
pub struct Variable {
    pub name: Name,
    pub typ: Name,
}

#[derive(Debug)]
pub enum Pattern {
    Named(Name),
    InPlace(Vec<Place>),
}

impl TermKind {
    /// The children, in the order of the text; of a quantifier the body only.
    pub fn parts(&self) -> Vec<Place> {
        match self {
            TermKind::Boolean(_)
            | TermKind::Integer(_)
            | TermKind::Literal { .. }
            | TermKind::Name(_) => Vec::new(),
            TermKind::Application { args, .. } | TermKind::BuiltIn { args, .. } => args.clone(),
            TermKind::IfThenElse(parts) => parts.to_vec(),
            TermKind::Let { rhs, body, .. } => vec![*rhs, *body],
            TermKind::Quantifier { body, .. } => vec![*body],
        }
    }
}

impl Term {
    /// How many patterns stand in place in the term, but for its children's.
    pub fn patterns_in_place(&self) -> usize {
        match &self.kind {
            TermKind::Quantifier { patterns, .. } => patterns
                .iter()
                .filter(|pattern| matches!(pattern, Pattern::InPlace(_)))
                .count(),
            _ => 0,
        }
    }
}
