//! The calls that append one record: a name, a constant, a term, a node.

use super::{grow, refuse_outside, Appended};
use crate::book::{kind, NUMBER_SIZE, TERM_FIELDS};

/// Appends a name, also where its text stands already: refusals 1 to 6, 28, 3
/// and 4 of the new book, 10.
pub fn append_name(
    book: &[u8],
    scratch: &mut [u8],
    text: &[u8],
    new_book: &mut [u8],
) -> Result<Appended, u32> {
    grow(book, scratch, new_book, true, |_, draft| {
        Ok(draft.name(text))
    })
}

/// Appends a constant: refusals 1 to 6, 28, 3, 4 and 28 of the new book, 10.
pub fn append_constant(
    book: &[u8],
    scratch: &mut [u8],
    name: u32,
    typ: u32,
    new_book: &mut [u8],
) -> Result<Appended, u32> {
    grow(book, scratch, new_book, true, |_, draft| {
        Ok(draft.constant([name, typ]))
    })
}

/// A term as it is handed over: kind and fields of its record, but that starts
/// and counts are 0, and the entries of its ranges, as bytes.
#[derive(Clone, Copy, Debug)]
pub struct TermHanded<'t> {
    pub record: [u32; TERM_FIELDS],
    pub lists: [&'t [u8]; 2],
}

impl TermHanded<'_> {
    /// Where the record has the starts of its ranges, each before its count;
    /// a range takes the list of its own place.
    fn range_fields(&self) -> &'static [usize] {
        match self.record[0] {
            kind::BUILT_IN | kind::FUNCTION => &[2],
            kind::QUANTIFIER => &[2, 4],
            _ => &[],
        }
    }

    /// Starts and counts are 0, lists without a range empty, and no list is
    /// cut inside a number.
    fn is_right(&self) -> bool {
        let starts = self.range_fields();
        let zero = |start: &usize| self.record[*start..=start + 1] == [0, 0];
        let whole = |list: &&[u8]| list.len().is_multiple_of(NUMBER_SIZE);
        let (ranged, others) = self.lists.split_at(starts.len());
        starts.iter().all(zero)
            && ranged.iter().all(whole)
            && others.iter().all(|list| list.is_empty())
    }
}

/// Appends a term and its list entries: refusals 1 to 6, 28, 3, 4, 5 and 28 of the
/// new book, 4 also for what is handed over wrongly, 10.
pub fn append_term(
    book: &[u8],
    scratch: &mut [u8],
    term: TermHanded,
    new_book: &mut [u8],
) -> Result<Appended, u32> {
    grow(book, scratch, new_book, term.is_right(), |_, draft| {
        let mut record = term.record;
        for (start, list) in term.range_fields().iter().zip(term.lists) {
            let range = draft.list(&numbers(list));
            record[*start..=start + 1].copy_from_slice(&range);
        }
        Ok(draft.term(record))
    })
}

/// The whole numbers of a list. Bytes behind them are no entry, so refusal 3
/// doesn't count them; with them the list is handed over wrongly.
fn numbers(list: &[u8]) -> Vec<u32> {
    let number = |bytes: &[u8]| {
        let mut number = [0; NUMBER_SIZE];
        number.copy_from_slice(bytes);
        u32::from_le_bytes(number)
    };
    list.chunks_exact(NUMBER_SIZE).map(number).collect()
}

/// Appends a node; its trace is a name's number + 1, or 0 for none: refusals 1
/// to 6, 28, 7 for parent and term, 3 to 6 of the new book, 10.
pub fn append_node(
    book: &[u8],
    scratch: &mut [u8],
    parent: u32,
    term: u32,
    trace: u32,
    new_book: &mut [u8],
) -> Result<Appended, u32> {
    grow(book, scratch, new_book, true, |program, draft| {
        refuse_outside(program, parent, Some(term))?;
        Ok(draft.context([parent, term, trace]))
    })
}
