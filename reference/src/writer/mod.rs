//! The writer of books: calls that read a book, append records, and write the
//! grown book into a buffer of its own. The book received is only read.
//!
//! An accepted call writes from byte 0; behind the new book the buffer keeps
//! what it held. A refused call leaves the buffer as it was. The scratch is
//! zero whole after every call, but untouched under refusal 1.

mod appends;
mod contexts;
mod draft;

pub use appends::{append_constant, append_name, append_node, append_term, TermHanded};
pub use contexts::{extend, extend_with_equality, record, record_trace_point};

use crate::book_test::{check, open};
use crate::program::Program;
use crate::refusal::{refuse_if, CONTENTS, COUNT, FIELD, NOT_IN_BOOK, TOO_LONG};
use draft::Draft;

/// What an accepted call answers: the new record's number, a node's as nodes
/// are numbered, and the new book's length.
#[derive(Clone, Copy, Debug, PartialEq, Eq)]
pub struct Appended {
    pub number: u32,
    pub length: usize,
}

/// The order of all refusals: 1 to 6 and 28 of the book received, 7, then 3 to 6
/// and 28 of the book as it would become, and 10. What is handed over wrongly is 4.
/// `growth` appends to the records received, over every limit if need be, and
/// gives the number that is answered, or 7.
fn grow(
    book: &[u8],
    scratch: &mut [u8],
    new_book: &mut [u8],
    handed_right: bool,
    growth: impl FnOnce(&Program, &mut Draft) -> Result<u32, u32>,
) -> Result<Appended, u32> {
    let program = open(book, scratch)?;
    let mut draft = Draft::of(book).ok_or(CONTENTS)?;
    let number = growth(&program, &mut draft)?;
    refuse_if(!draft.is_within_limits(), COUNT)?;
    refuse_if(!handed_right, FIELD)?;
    let grown = draft.book();
    check(&grown)?;
    let length = grown.len();
    refuse_if(length > new_book.len(), TOO_LONG)?;
    new_book[..length].copy_from_slice(&grown);
    Ok(Appended { number, length })
}

/// Refusal 7, for a parent or a term outside the book received.
fn refuse_outside(program: &Program, parent: u32, term: Option<u32>) -> Result<(), u32> {
    let in_book = program.has_node(parent) && term.is_none_or(|term| program.has_term(term));
    refuse_if(!in_book, NOT_IN_BOOK)
}
