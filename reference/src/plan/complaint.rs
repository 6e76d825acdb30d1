//! What is wrong with a record of a book by the rules of names and sorts.

use std::fmt;

/// A record by the number that calls and fields have for it: the first type
/// of a book is 2, its first node 1. Goals are those of a plan, from 0.
#[derive(Clone, Copy, Debug, PartialEq, Eq)]
pub enum Record {
    Type(usize),
    Constant(usize),
    Function(usize),
    Term(usize),
    Node(usize),
    Axiom(usize),
    Goal(usize),
}

impl Record {
    /// The sort of record in a word, and its number.
    pub fn word_and_number(self) -> (&'static str, usize) {
        match self {
            Record::Type(number) => ("type", number),
            Record::Constant(number) => ("constant", number),
            Record::Function(number) => ("function", number),
            Record::Term(number) => ("term", number),
            Record::Node(number) => ("node", number),
            Record::Axiom(number) => ("axiom", number),
            Record::Goal(number) => ("goal", number),
        }
    }
}

impl fmt::Display for Record {
    fn fmt(&self, f: &mut fmt::Formatter) -> fmt::Result {
        let (word, number) = self.word_and_number();
        write!(f, "{word} {number}")
    }
}

#[derive(Clone, Copy, Debug, PartialEq, Eq)]
enum Rules {
    Names,
    Sorts,
}

/// Shown as `term 34: expected .., found ..`.
#[derive(Clone, Debug, PartialEq, Eq)]
pub struct Complaint {
    rules: Rules,
    pub record: Record,
    /// Which of a term's children it is about, if it is about one.
    pub part: Option<usize>,
    pub expected: String,
    found: String,
    /// A record that has to do with it, behind the words that say how.
    other: Option<(&'static str, Record)>,
}

impl Complaint {
    pub(super) fn of_names(record: Record, expected: &str, found: String) -> Complaint {
        Complaint {
            rules: Rules::Names,
            record,
            part: None,
            expected: expected.into(),
            found,
            other: None,
        }
    }

    pub(super) fn of_sorts(record: Record, expected: String, found: String) -> Complaint {
        Complaint {
            rules: Rules::Sorts,
            record,
            part: None,
            expected,
            found,
            other: None,
        }
    }

    pub(super) fn about_part(self, part: usize) -> Complaint {
        let part = Some(part);
        Complaint { part, ..self }
    }

    pub(super) fn with_other(self, link: &'static str, other: Record) -> Complaint {
        let other = Some((link, other));
        Complaint { other, ..self }
    }

    pub fn is_of_names(&self) -> bool {
        self.rules == Rules::Names
    }

    pub fn is_of_sorts(&self) -> bool {
        self.rules == Rules::Sorts
    }

    /// What was found, another record shown by `show`.
    pub fn found(&self, show: impl Fn(Record) -> String) -> String {
        match self.other {
            None => self.found.clone(),
            Some((link, other)) => format!("{}, {link} {}", self.found, show(other)),
        }
    }
}

impl fmt::Display for Complaint {
    fn fmt(&self, f: &mut fmt::Formatter) -> fmt::Result {
        let (record, expected) = (self.record, &self.expected);
        let found = self.found(|other| other.to_string());
        write!(f, "{record}: expected {expected}, found {found}")
    }
}
