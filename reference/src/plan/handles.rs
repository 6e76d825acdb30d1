//! What the records of a book are called in the text that is written for it.

use crate::plan::words::{
    is_reserved_symbol, is_reserved_type, name_of_symbol, symbol, text_of, BOOL_TYPE, INT_TYPE,
    ROOT_NODE,
};
use crate::program::{Program, SType, ROOT};
use crate::symbols::bare;
use std::collections::HashSet;

/// A symbol as the text has it, and the record's name if it is another.
pub struct Handle {
    pub symbol: String,
    pub given: Option<String>,
}

pub struct Handles {
    pub types: Vec<Handle>,
    pub constants: Vec<Handle>,
    pub functions: Vec<Handle>,
    pub terms: Vec<String>,
}

impl Handles {
    /// Records are called by their names where these are symbols of their
    /// own, else by a letter and their number.
    pub fn of(program: &Program) -> Handles {
        let types: Vec<&[u8]> = program.types.iter().map(|typ| typ.name).collect();
        let constants: Vec<&[u8]> = program.constants.iter().map(|v| v.name).collect();
        let functions: Vec<&[u8]> = program.functions.iter().map(|f| f.name).collect();

        let mut type_symbols = Symbols::new(is_reserved_type);
        let own_types = type_symbols.own(&types);
        // Constants, functions and terms share their symbols.
        let mut symbols = Symbols::new(is_reserved_symbol);
        let own_constants = symbols.own(&constants);
        let own_functions = symbols.own(&functions);
        Handles {
            types: type_symbols.handles("T", &types, own_types),
            constants: symbols.handles("c", &constants, own_constants),
            functions: symbols.handles("f", &functions, own_functions),
            terms: (0..program.terms.len())
                .map(|term| symbols.made("t", term))
                .collect(),
        }
    }

    pub fn typ(&self, typ: SType) -> &str {
        match typ {
            SType::SBool => BOOL_TYPE,
            SType::SInt => INT_TYPE,
            SType::SUserType(decl) => &self.types[decl].symbol,
        }
    }
}

pub fn axiom(number: usize) -> String {
    format!("a{number}")
}

pub fn pattern(number: usize) -> String {
    format!("p{number}")
}

pub fn node(number: usize) -> String {
    match number {
        ROOT => ROOT_NODE.into(),
        _ => format!("n{number}"),
    }
}

/// The symbols of one kind that are taken.
struct Symbols {
    taken: HashSet<String>,
    is_reserved: fn(&str) -> bool,
}

impl Symbols {
    fn new(is_reserved: fn(&str) -> bool) -> Symbols {
        Symbols {
            taken: HashSet::new(),
            is_reserved,
        }
    }

    /// The symbols that the records' names stand for, where nothing before has
    /// taken them. A name whose bars the book need not have is given besides.
    fn own(&mut self, names: &[&[u8]]) -> Vec<Option<Handle>> {
        let mut own = |name: &&[u8]| {
            let (text, name) = (text_of(bare(name)), text_of(name));
            let is_free = !(self.is_reserved)(&text) && self.taken.insert(text.clone());
            is_free.then(|| Handle {
                symbol: symbol(&text),
                given: (name_of_symbol(&text) != name).then_some(name),
            })
        };
        names.iter().map(&mut own).collect()
    }

    fn handles(&mut self, prefix: &str, names: &[&[u8]], own: Vec<Option<Handle>>) -> Vec<Handle> {
        let mut handles = Vec::new();
        for (number, own) in own.into_iter().enumerate() {
            handles.push(own.unwrap_or_else(|| Handle {
                symbol: self.made(prefix, number),
                given: Some(text_of(names[number])),
            }));
        }
        handles
    }

    /// The prefix and the number, with underscores behind it until it is new.
    fn made(&mut self, prefix: &str, number: usize) -> String {
        let mut text = format!("{prefix}{number}");
        while (self.is_reserved)(&text) || !self.taken.insert(text.clone()) {
            text.push('_');
        }
        text
    }
}
