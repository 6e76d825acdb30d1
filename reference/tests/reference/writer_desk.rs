//! A desk for the writer's calls: it holds each to what document 01 says of
//! scratch and buffer, and to 10 in a buffer that is too short by a byte.

use crate::desk::{buffer, used};
use leskofar_reference::book::TERM_FIELDS;
use leskofar_reference::book_test::SCRATCH_SIZE;
use leskofar_reference::refusal::TOO_LONG;
use leskofar_reference::writer::{self, Appended, TermHanded};

/// More than any book has.
const ROOM: usize = 1 << 16;
/// A scratch that is longer than it need be.
const LONG_SCRATCH: usize = SCRATCH_SIZE + 77;

/// A call of the writer but for its book and buffers.
#[derive(Clone, Debug)]
pub enum Growth {
    Name(Vec<u8>),
    Constant([u32; 2]),
    Term([u32; TERM_FIELDS], [Vec<u8>; 2]),
    Node([u32; 3]),
    Extend([u32; 2], Option<Vec<u8>>),
    Equality([u32; 3]),
    Record([u32; 3], Option<Vec<u8>>),
    TracePoint(u32, Vec<u8>),
}

impl Growth {
    pub fn name(text: &str) -> Growth {
        Growth::Name(text.into())
    }

    /// A term whose lists are numbers.
    pub fn term(record: [u32; TERM_FIELDS], lists: [&[u32]; 2]) -> Growth {
        Growth::Term(record, lists.map(bytes))
    }

    pub fn extend(parent: u32, term: u32, trace: Option<&str>) -> Growth {
        Growth::Extend([parent, term], trace.map(Into::into))
    }

    pub fn record(parent: u32, term: u32, typ: u32, trace: Option<&str>) -> Growth {
        Growth::Record([parent, term, typ], trace.map(Into::into))
    }

    pub fn trace_point(parent: u32, trace: &str) -> Growth {
        Growth::TracePoint(parent, trace.into())
    }

    pub fn call(
        &self,
        book: &[u8],
        scratch: &mut [u8],
        new_book: &mut [u8],
    ) -> Result<Appended, u32> {
        let (b, s, n) = (book, scratch, new_book);
        match self {
            Growth::Name(text) => writer::append_name(b, s, text, n),
            Growth::Constant([name, typ]) => writer::append_constant(b, s, *name, *typ, n),
            Growth::Term(record, [first, second]) => {
                let (record, lists) = (*record, [&first[..], second]);
                writer::append_term(b, s, TermHanded { record, lists }, n)
            }
            Growth::Node([parent, term, trace]) => {
                writer::append_node(b, s, *parent, *term, *trace, n)
            }
            Growth::Extend([parent, term], trace) => {
                writer::extend(b, s, *parent, *term, trace.as_deref(), n)
            }
            Growth::Equality([parent, constant, term]) => {
                writer::extend_with_equality(b, s, *parent, *constant, *term, n)
            }
            Growth::Record([parent, term, typ], trace) => {
                writer::record(b, s, *parent, *term, *typ, trace.as_deref(), n)
            }
            Growth::TracePoint(parent, trace) => {
                writer::record_trace_point(b, s, *parent, trace, n)
            }
        }
    }
}

/// The number that is answered and the grown book, or the refusal.
pub fn grown(book: &[u8], growth: &Growth) -> Result<(u32, Vec<u8>), u32> {
    let with = |room: usize| {
        let mut new_book = buffer(room);
        let mut scratch = buffer(LONG_SCRATCH);
        let answer = growth.call(book, &mut scratch, &mut new_book);
        assert!(scratch.iter().all(|byte| *byte == 0));
        (answer, new_book)
    };
    let (answer, new_book) = with(ROOM);
    let Ok(Appended { number, length }) = answer else {
        assert_eq!(new_book, buffer(ROOM));
        return Err(answer.unwrap_err());
    };
    let new_book = used(&new_book, length);
    assert_eq!(with(length), (answer, new_book.clone()));
    assert_eq!(with(length - 1), (Err(TOO_LONG), buffer(length - 1)));
    assert_eq!(with(0), (Err(TOO_LONG), vec![]));
    Ok((number, new_book))
}

/// The grown book, of a growth that is accepted.
pub fn accepted(book: &[u8], growth: &Growth) -> Vec<u8> {
    let (_, new_book) = grown(book, growth).expect("accepted");
    new_book
}

pub fn refusal(book: &[u8], growth: &Growth) -> u32 {
    grown(book, growth).expect_err("refused")
}

/// Numbers as they are handed over.
pub fn bytes(numbers: &[u32]) -> Vec<u8> {
    numbers.iter().flat_map(|n| n.to_le_bytes()).collect()
}
