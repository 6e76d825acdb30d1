//! The rules of names: each can go to the solver and is one token to it, and no
//! two things that it has to tell apart print alike. Every record is looked at,
//! used or not.

use crate::book::FIRST_USER_TYPE;
use crate::lower::{custom_literal_to_sexpr_name, TAG};
use crate::plan::complaint::{Complaint, Record};
use crate::plan::tokens::{is_number, is_symbol, looks_like_negative_number};
use crate::plan::words::{text_of, BOOL_TYPE, FALSE, INT_TYPE, ITE, TRUE};
use crate::program::{Program, RExpr, ROperator, SType};
use crate::smtlib::signatures::operators;
use crate::smtlib::words::is_reserved;
use crate::symbols::{bare, has_bar, is_name};
use std::collections::HashMap;

const A_NAME: &str = "a name that is not empty and has neither bar nor backslash inside";
const A_SYMBOL_OR_NUMBER: &str = "a symbol or a number of SMT-LIB";
const NO_NUMBER: &str = "a name that does not look like a negative number";
const NOT_RESERVED: &str = "a name that SMT-LIB does not reserve";
const BETWEEN_BARS: &str = "a literal without bars and backslashes inside";
const ITS_OWN: &str = "a name of its own";
const NAME_OF: &str = "the name of";
const OF: &str = "of";

/// What the solver knows before anything is declared.
const WORDS: [&str; 3] = [TRUE, FALSE, ITE];
const BUILT_IN_TYPES: [&str; 2] = [BOOL_TYPE, INT_TYPE];

/// The names that refusal 28 is for, in the order of `complaints`. No call takes
/// a book that has one.
pub fn refused(program: &Program) -> Vec<Complaint> {
    let declared = types(program).chain(constants_and_functions(program));
    let bad = declared.filter(|(_, name)| !is_name(name));
    let mut complaints: Vec<Complaint> = bad
        .map(|(record, name)| Complaint::of_names(record, A_NAME, shown(name)))
        .collect();
    for (number, term) in program.terms.iter().enumerate() {
        if let RExpr::CustomLiteral { s, typ } = term {
            let record = Record::Term(number);
            complaints.extend(refused_literal(program, record, s, *typ));
        }
    }
    complaints
}

fn refused_literal(program: &Program, record: Record, s: &[u8], typ: SType) -> Option<Complaint> {
    if s == TAG {
        return None;
    }
    let name = custom_literal_to_sexpr_name(program, s, typ);
    let complaint = Complaint::of_names(record, BETWEEN_BARS, shown(&name));
    match typ {
        _ if has_bar(s) => Some(complaint),
        SType::SUserType(number) if has_bar(typ.text(program)) => {
            Some(complaint.with_other(OF, type_record(number)))
        }
        _ => None,
    }
}

/// The first complaint of each record of a book that passes: types, constants,
/// functions, terms.
pub fn complaints(program: &Program) -> Vec<Complaint> {
    let mut complaints = Vec::new();
    let mut type_names = Space::with(BUILT_IN_TYPES, "a built-in type");
    for (record, name) in types(program) {
        complaints.extend(declared(&mut type_names, record, name));
    }
    let mut symbols = Space::with(WORDS, "a word of terms");
    symbols.take_words(operators(), "an operator");
    for (record, name) in constants_and_functions(program) {
        complaints.extend(declared(&mut symbols, record, name));
    }
    for (number, term) in program.terms.iter().enumerate() {
        let record = Record::Term(number);
        complaints.extend(match term {
            RExpr::CustomLiteral { s, typ } if *s != TAG => {
                let name = custom_literal_to_sexpr_name(program, s, *typ);
                let clash = symbols.take(bare(&name), Use::Literal(*typ), record);
                clash.map(|clash| clash.complaint(record, &name))
            }
            RExpr::FuncAppl {
                op: ROperator::BuiltInOperator(name),
                ..
            } => built_in(&mut symbols, record, name),
            _ => None,
        });
    }
    complaints
}

fn type_record(user_type: usize) -> Record {
    Record::Type(user_type + FIRST_USER_TYPE as usize)
}

fn types<'p>(program: &'p Program) -> impl Iterator<Item = (Record, &'p [u8])> {
    let types = program.types.iter().enumerate();
    types.map(|(number, typ)| (type_record(number), typ.name))
}

/// They share their names.
fn constants_and_functions<'p>(program: &'p Program) -> impl Iterator<Item = (Record, &'p [u8])> {
    let constants = program.constants.iter().enumerate();
    let functions = program.functions.iter().enumerate();
    constants
        .map(|(number, constant)| (Record::Constant(number), constant.name))
        .chain(functions.map(|(number, function)| (Record::Function(number), function.name)))
}

/// The name of a type, constant or function, which is printed as a symbol.
fn declared(space: &mut Space, record: Record, name: &[u8]) -> Option<Complaint> {
    let clash = space.take(bare(name), Use::Declared, record);
    if looks_like_negative_number(bare(name)) {
        Some(Complaint::of_names(record, NO_NUMBER, shown(name)))
    } else {
        Some(clash?.complaint(record, name))
    }
}

/// The name of an operator is printed as it is.
fn built_in(space: &mut Space, record: Record, name: &[u8]) -> Option<Complaint> {
    let clash = space.take(bare(name), Use::BuiltIn, record);
    let complain = |expected| Complaint::of_names(record, expected, shown(name));
    if !is_symbol(name) && !is_number(name) {
        Some(complain(A_SYMBOL_OR_NUMBER))
    } else if is_reserved(bare(name)) {
        Some(complain(NOT_RESERVED))
    } else {
        Some(clash?.complaint(record, name))
    }
}

fn shown(name: &[u8]) -> String {
    match name {
        [] => "an empty name".into(),
        _ => format!("`{}`", text_of(name)),
    }
}

/// What a symbol is used for. Uses that are not the same thing clash.
#[derive(Clone, Copy, PartialEq, Eq)]
enum Use {
    Declared,
    Literal(SType),
    BuiltIn,
}

/// Who has a symbol.
#[derive(Clone, Copy)]
enum Holder {
    Solver(&'static str),
    Book(Use, Record),
}

impl Holder {
    fn clashes_with(self, new: Use) -> bool {
        match self {
            Holder::Solver(_) => new == Use::Declared,
            Holder::Book(Use::Declared, _) => true,
            Holder::Book(old, _) => old != new,
        }
    }

    fn complaint(self, record: Record, name: &[u8]) -> Complaint {
        let complain = |found| Complaint::of_names(record, ITS_OWN, found);
        match self {
            Holder::Solver(what) => complain(format!("{}, {what}", shown(name))),
            Holder::Book(_, other) => complain(shown(name)).with_other(NAME_OF, other),
        }
    }
}

/// The symbols of one space with their holders, the earliest first.
struct Space {
    holders: HashMap<Vec<u8>, Vec<Holder>>,
}

impl Space {
    fn with<const N: usize>(words: [&str; N], what: &'static str) -> Space {
        let mut space = Space {
            holders: HashMap::new(),
        };
        space.take_words(words.into_iter(), what);
        space
    }

    fn take_words<'w>(&mut self, words: impl Iterator<Item = &'w str>, what: &'static str) {
        for word in words {
            let holders = vec![Holder::Solver(what)];
            self.holders.insert(word.into(), holders);
        }
    }

    /// Notes a use, and gives the earliest that it clashes with.
    fn take(&mut self, symbol: &[u8], new: Use, record: Record) -> Option<Holder> {
        let holders = self.holders.entry(symbol.into()).or_default();
        let clash = holders.iter().copied().find(|old| old.clashes_with(new));
        let is_known = |old: &Holder| matches!(old, Holder::Book(old, _) if *old == new);
        if !holders.iter().any(is_known) {
            holders.push(Holder::Book(new, record));
        }
        clash
    }
}
