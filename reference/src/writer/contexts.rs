//! `Extend`, `ExtendWithEquality`, `Record` and `RecordTracePoint` of
//! RSolver.dfy: a new node with what it needs. Names are taken where their
//! text stands already; all other records are new. Refusals 1 to 6, 28, 7
//! for parent and term, 3 to 6 of the new book, 10.

use super::draft::Draft;
use super::{grow, refuse_outside, Appended};
use crate::book::BOOL;

/// What the name of a recorded constant begins with.
const PROBE: &str = "probe%";
/// A context's trace field where it has none.
const NO_TRACE: u32 = 0;

/// `Extend`: a node with a term.
pub fn extend(
    book: &[u8],
    scratch: &mut [u8],
    parent: u32,
    term: u32,
    trace: Option<&[u8]>,
    new_book: &mut [u8],
) -> Result<Appended, u32> {
    grow(book, scratch, new_book, true, |program, draft| {
        refuse_outside(program, parent, Some(term))?;
        let trace = trace.map_or(NO_TRACE, |text| draft.name_with(text) + 1);
        Ok(draft.context([parent, term, trace]))
    })
}

/// `ExtendWithEquality`: a node that says what a constant equals.
pub fn extend_with_equality(
    book: &[u8],
    scratch: &mut [u8],
    parent: u32,
    constant: u32,
    term: u32,
    new_book: &mut [u8],
) -> Result<Appended, u32> {
    grow(book, scratch, new_book, true, |program, draft| {
        refuse_outside(program, parent, Some(term))?;
        let equality = draft.equality(constant, term);
        Ok(draft.context([parent, equality, NO_TRACE]))
    })
}

/// `Record`: a node that says what a new constant equals. Where no trace is
/// given it is the constant's name.
pub fn record(
    book: &[u8],
    scratch: &mut [u8],
    parent: u32,
    term: u32,
    typ: u32,
    trace: Option<&[u8]>,
    new_book: &mut [u8],
) -> Result<Appended, u32> {
    grow(book, scratch, new_book, true, |program, draft| {
        refuse_outside(program, parent, Some(term))?;
        let depth = program.depth(parent as usize);
        Ok(record_below(draft, parent, depth, |_| term, typ, trace))
    })
}

/// `RecordTracePoint`: the record of `true`.
pub fn record_trace_point(
    book: &[u8],
    scratch: &mut [u8],
    parent: u32,
    trace: &[u8],
    new_book: &mut [u8],
) -> Result<Appended, u32> {
    grow(book, scratch, new_book, true, |program, draft| {
        refuse_outside(program, parent, None)?;
        let depth = program.depth(parent as usize);
        let trace = Some(trace);
        Ok(record_below(
            draft,
            parent,
            depth,
            Draft::truth,
            BOOL,
            trace,
        ))
    })
}

/// Names come in the order probe name, `=`, trace; terms in the order of
/// `term`, identifier, equality.
fn record_below(
    draft: &mut Draft,
    parent: u32,
    depth: usize,
    term: impl FnOnce(&mut Draft) -> u32,
    typ: u32,
    trace: Option<&[u8]>,
) -> u32 {
    let name = draft.name_with(format!("{PROBE}{depth}").as_bytes());
    let constant = draft.constant([name, typ]);
    let term = term(draft);
    let equality = draft.equality(constant, term);
    let trace = trace.map_or(name, |text| draft.name_with(text));
    draft.context([parent, equality, trace + 1])
}
