//! From a book to the text of a plan. A book knows no goals: the terms that
//! nothing refers to become `term` items.

use crate::book::Book;
use crate::book_test::check;
use crate::plan::handles::{self, Handle};
use crate::plan::item_order::terms_axioms_and_nodes;
use crate::plan::layout::Piece;
use crate::plan::storage::needed_storage;
use crate::plan::term_writer::TermWriter;
use crate::plan::words::{string, CONSTANT, EXPLAINED_BY_KEY, FUNCTION, NAME_KEY, PATTERN, TYPE};
use crate::program::{Function, RPattern, SConstant, SType};
use crate::refusal::CONTENTS;

/// The text of a book, or the number that the book test refuses it with.
pub fn write(bytes: &[u8]) -> Result<String, u32> {
    let program = check(bytes)?;
    let book = Book::new(bytes).ok_or(CONTENTS)?;
    let writer = TermWriter::new(&program);
    let groups = [
        needed_storage(book, &program),
        types(&writer),
        constants(&writer),
        functions(&writer),
        terms_axioms_and_nodes(&writer),
        patterns(&writer),
    ];
    let mut text = String::new();
    for group in groups.iter().filter(|group| !group.is_empty()) {
        if !text.is_empty() {
            text.push('\n');
        }
        for item in group {
            item.put(0, &mut text);
            text.push('\n');
        }
    }
    Ok(text)
}

fn types(writer: &TermWriter) -> Vec<Piece> {
    let item = |handle: &Handle| {
        let mut parts = vec![Piece::word(TYPE), Piece::word(&handle.symbol)];
        parts.extend(given_name(handle));
        Piece::row(parts)
    };
    writer.handles.types.iter().map(item).collect()
}

fn constants(writer: &TermWriter) -> Vec<Piece> {
    let handles = writer.handles.constants.iter();
    let item = |(handle, constant): (&Handle, &SConstant)| {
        let mut parts = vec![
            Piece::word(CONSTANT),
            Piece::word(&handle.symbol),
            Piece::word(writer.handles.typ(constant.typ)),
        ];
        parts.extend(given_name(handle));
        Piece::row(parts)
    };
    handles.zip(&writer.program.constants).map(item).collect()
}

fn functions(writer: &TermWriter) -> Vec<Piece> {
    let handles = writer.handles.functions.iter();
    let item = |(handle, record)| function(writer, handle, record);
    handles.zip(&writer.program.functions).map(item).collect()
}

fn function(writer: &TermWriter, handle: &Handle, record: &Function) -> Piece {
    let type_name = |typ: &SType| writer.handles.typ(*typ);
    let mut parts = vec![
        Piece::word(FUNCTION),
        Piece::word(&handle.symbol),
        Piece::words(record.input_types.iter().map(type_name)),
        Piece::word(type_name(&record.typ)),
    ];
    let signature = parts.len();
    parts.extend(given_name(handle));
    if !record.explained_by.is_empty() {
        let axiom = |axiom: &usize| Piece::word(handles::axiom(*axiom));
        let axioms = Piece::row(record.explained_by.iter().map(axiom).collect());
        parts.push(Piece::attribute(EXPLAINED_BY_KEY, axioms));
    }
    Piece::row_keeping(signature, parts)
}

fn given_name(handle: &Handle) -> Option<Piece> {
    let given = handle.given.as_ref()?;
    Some(Piece::attribute(NAME_KEY, Piece::word(string(given))))
}

/// The patterns that don't stand in their quantifiers.
fn patterns(writer: &TermWriter) -> Vec<Piece> {
    let item = |(number, pattern): (usize, &RPattern)| {
        let terms = pattern.exprs.iter().map(|term| writer.name(*term));
        Piece::row(vec![
            Piece::word(PATTERN),
            Piece::word(handles::pattern(number)),
            Piece::row(terms.collect()),
        ])
    };
    let patterns = writer.program.patterns.iter().enumerate();
    let items = patterns.skip(writer.nesting.patterns_in_place);
    items.map(item).collect()
}
