//! A call of the writer, made on the library and on the reference: the answer,
//! every byte of the new book's buffer and of the scratch and behind them, and
//! that whatever was handed over stays as it is. And what a growth keeps.

use crate::buffers::Fenced;
use crate::library::book_test;
use crate::scratch_bytes::are_left;
use crate::writer_library::{self as library, Appended, Buffers};
use leskofar_reference::book::{Book, Section, TERM_FIELDS};
use leskofar_reference::book_test::SCRATCH_SIZE;
use leskofar_reference::writer::{self as reference, TermHanded};
use std::hint::black_box;

/// A call but for its book and buffers.
#[derive(Clone, Debug, PartialEq)]
pub enum Growth {
    Name(Vec<u8>),
    /// Name and type.
    Constant(u32, u32),
    /// The record as it is handed over, and the lists of its ranges.
    Term([u32; TERM_FIELDS], [Vec<u8>; 2]),
    /// Parent, term, and the trace's name + 1 or 0.
    Node(u32, u32, u32),
    /// Parent and term.
    Extend(u32, u32, Trace),
    /// Parent, constant and term.
    Equality(u32, u32, u32),
    /// Parent, term and type.
    Record([u32; 3], Trace),
    /// Parent.
    TracePoint(u32, Vec<u8>),
}

/// A flag is any number; where it is 0 no trace is given.
#[derive(Clone, Debug, PartialEq)]
pub struct Trace {
    pub flag: u32,
    pub text: Vec<u8>,
}

impl Trace {
    fn given(&self) -> Option<&[u8]> {
        (self.flag != 0).then_some(&self.text)
    }
}

/// What a call is given: its book, what the scratch holds, and the length of
/// the new book's buffer.
pub struct Given<'b> {
    pub book: &'b [u8],
    pub scratch: &'b [u8],
    pub room: usize,
}

/// What a call leaves.
pub struct Grown {
    pub answer: Appended,
    new_book: Fenced,
    scratch: Fenced,
}

impl Grown {
    /// None where the call is refused.
    pub fn book(&self) -> Option<&[u8]> {
        let length = self.answer.length as usize;
        (self.answer.refusal == 0).then(|| &self.new_book.content()[..length])
    }
}

impl Growth {
    pub fn on_library(&self, b: Buffers) -> Appended {
        match self {
            Growth::Name(text) => library::append_name(b, text),
            Growth::Constant(name, typ) => library::append_constant(b, *name, *typ),
            Growth::Term(record, lists) => library::append_term(b, *record, slices(lists)),
            Growth::Node(parent, term, trace) => library::append_node(b, *parent, *term, *trace),
            Growth::Extend(parent, term, Trace { flag, text }) => {
                library::extend(b, *parent, *term, *flag, text)
            }
            Growth::Equality(parent, constant, term) => {
                library::extend_with_equality(b, *parent, *constant, *term)
            }
            Growth::Record(numbers, Trace { flag, text }) => {
                library::record(b, *numbers, *flag, text)
            }
            Growth::TracePoint(parent, text) => library::record_trace_point(b, *parent, text),
        }
    }

    pub fn on_reference(&self, b: Buffers) -> Appended {
        let (book, scratch, new) = (b.book, b.scratch, b.new_book);
        told(match self {
            Growth::Name(text) => reference::append_name(book, scratch, text, new),
            Growth::Constant(name, typ) => {
                reference::append_constant(book, scratch, *name, *typ, new)
            }
            Growth::Term(record, lists) => {
                let (record, lists) = (*record, slices(lists));
                reference::append_term(book, scratch, TermHanded { record, lists }, new)
            }
            Growth::Node(parent, term, trace) => {
                reference::append_node(book, scratch, *parent, *term, *trace, new)
            }
            Growth::Extend(parent, term, trace) => {
                reference::extend(book, scratch, *parent, *term, trace.given(), new)
            }
            Growth::Equality(parent, constant, term) => {
                reference::extend_with_equality(book, scratch, *parent, *constant, *term, new)
            }
            Growth::Record([parent, term, typ], trace) => {
                reference::record(book, scratch, *parent, *term, *typ, trace.given(), new)
            }
            Growth::TracePoint(parent, text) => {
                reference::record_trace_point(book, scratch, *parent, text, new)
            }
        })
    }

    /// The new book, as the reference has it, or none where the call is
    /// refused for more than want of room.
    pub fn new_book(&self, book: &[u8]) -> Option<Vec<u8>> {
        let mut new_book = vec![0; LARGEST_BOOK];
        let answer = self.on_reference(Buffers {
            book,
            scratch: &mut [0; SCRATCH_SIZE],
            new_book: &mut new_book,
        });
        new_book.truncate(answer.length as usize);
        (answer.refusal == 0).then_some(new_book)
    }

    /// Its length, or 0.
    pub fn length(&self, book: &[u8]) -> usize {
        self.new_book(book).map_or(0, |new_book| new_book.len())
    }

    /// Makes the call on both. The first difference is an error.
    pub fn compare(&self, given: &Given) -> Result<Grown, String> {
        let theirs = grown(given, given.book, |b| self.on_reference(b));
        let book = Fenced::holding(given.book);
        let handed = self.clone();
        let ours = grown(given, book.content(), |b| handed.on_library(b));
        let stayed =
            *black_box(&book) == Fenced::holding(given.book) && *black_box(&handed) == *self;
        let what = if ours.answer != theirs.answer {
            format!("{:?}, expected {:?}", ours.answer, theirs.answer)
        } else if ours.new_book != theirs.new_book {
            format!("another new book after {:?}", ours.answer)
        } else if !are_left(
            [&ours.scratch, &theirs.scratch],
            given.scratch,
            ours.answer.refusal,
        ) {
            format!("another scratch after {:?}", ours.answer)
        } else if !stayed {
            format!(
                "another book, text or list received after {:?}",
                ours.answer
            )
        } else if let Some(lost) = ours.book().and_then(|new| not_kept(given.book, new)) {
            format!("{lost} after {:?}", ours.answer)
        } else {
            return Ok(ours);
        };
        Err(format!(
            "{what}, of {self:?} with scratch {:?}, room {}, book {:?}",
            given.scratch, given.room, given.book
        ))
    }
}

/// Bytes of the largest book, as the limits of document 01 give it.
pub const LARGEST_BOOK: usize = 63_312;

fn slices(lists: &[Vec<u8>; 2]) -> [&[u8]; 2] {
    lists.each_ref().map(|list| &list[..])
}

fn grown(given: &Given, book: &[u8], call: impl FnOnce(Buffers) -> Appended) -> Grown {
    let mut scratch = Fenced::holding(given.scratch);
    let mut new_book = Fenced::new(given.room);
    let answer = call(Buffers {
        book,
        scratch: scratch.room(),
        new_book: new_book.room(),
    });
    Grown {
        answer,
        new_book,
        scratch,
    }
}

/// The reference's answer, as the library tells it.
fn told(answer: Result<reference::Appended, u32>) -> Appended {
    match answer {
        Ok(appended) => Appended {
            refusal: 0,
            number: appended.number,
            length: appended.length as u64,
        },
        Err(refusal) => Appended {
            refusal,
            ..Appended::default()
        },
    }
}

/// What a growth should have kept and did not: the new book passes the test,
/// and every body begins with the old one.
fn not_kept(old: &[u8], new: &[u8]) -> Option<String> {
    let refusal = book_test(new, &mut [0; SCRATCH_SIZE]);
    if refusal != 0 {
        return Some(format!("the new book is refused {refusal}"));
    }
    let other = Section::ALL
        .into_iter()
        .find(|section| !body(new, *section).starts_with(body(old, *section)));
    other.map(|section| format!("{section:?} are others"))
}

/// The bytes of a section of a book that is laid out.
fn body(bytes: &[u8], section: Section) -> &[u8] {
    let book = Book::new(bytes).expect("laid out");
    let start = book.offset(section) as usize;
    &bytes[start..start + book.count(section) as usize * section.record_size()]
}
