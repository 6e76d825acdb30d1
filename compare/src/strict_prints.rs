//! The strict reader of SMT-LIB 2.6 on prints of terms: where a book's operators
//! are sane. All its symbols are declared beforehand, each as a name of the book
//! without its bars.

use crate::sane::Symbols;
use crate::strict::{reader, reading_of};
use leskofar_reference::commands::{declare_function, declare_sort};
use leskofar_reference::lower::{custom_literal_to_sexpr_name, TAG};
use leskofar_reference::program::{Program, RExpr, SType};
use leskofar_reference::sink::Sink;
use leskofar_reference::smtlib::Reader;
use leskofar_reference::symbols::symbol_text;
use std::collections::{BTreeMap, BTreeSet};

pub struct Prints {
    /// None where the book's operators are not sane.
    reader: Option<Reader>,
    /// How many prints were read.
    pub read: usize,
}

impl Prints {
    pub fn new(book: &[u8], program: &Program) -> Result<Prints, String> {
        let mut prints = Prints {
            reader: None,
            read: 0,
        };
        if let Some(reading) = reading_of(book) {
            let mut reader = reader(reading);
            reader
                .read(&declarations(program))
                .map_err(|refused| format!("strictly, {refused}, in declarations"))?;
            let Symbols {
                sorts, functions, ..
            } = Symbols::of(program);
            let declared = [&reader.sorts, &reader.functions]
                .map(|symbols| symbols.iter().cloned().collect::<BTreeSet<Vec<u8>>>());
            if declared != [sorts, functions] {
                return Err(format!("other symbols are declared than {book:?} has"));
            }
            prints.reader = Some(reader);
        }
        Ok(prints)
    }

    /// Reads a print as a term.
    pub fn read(&mut self, text: &[u8]) -> Result<(), String> {
        if let Some(reader) = &self.reader {
            reader
                .read_term(text)
                .map_err(|refused| format!("strictly, {refused}, in {}", text.escape_ascii()))?;
            self.read += 1;
        }
        Ok(())
    }
}

/// Of every type, constant and function, and of every literal but `%tag`.
fn declarations(program: &Program) -> Vec<u8> {
    let mut sink = Sink::unlimited();
    for typ in &program.types {
        declare_sort(&symbol_text(typ.name), &mut sink);
    }
    let mut declare = |name: &[u8], inputs: &[SType], output: SType| {
        let inputs = SType::types_to_sexpr(inputs, program);
        declare_function(name, &inputs, &output.to_sexpr(program), &mut sink);
    };
    for constant in &program.constants {
        declare(&symbol_text(constant.name), &[], constant.typ);
    }
    for function in &program.functions {
        declare(
            &symbol_text(function.name),
            &function.input_types,
            function.typ,
        );
    }
    let mut literals = BTreeMap::new();
    for term in &program.terms {
        if let RExpr::CustomLiteral { s, typ } = term {
            if *s != TAG {
                literals.insert(custom_literal_to_sexpr_name(program, s, *typ), *typ);
            }
        }
    }
    for (name, typ) in literals {
        declare(&name, &[], typ);
    }
    sink.take()
}
