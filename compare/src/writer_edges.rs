//! Growths whose answers are known beforehand: the worked ones, and nodes as
//! deep as they may be.

use crate::made_books::chain;
use crate::made_growths::{extend, record, term, trace_point};
use crate::tally::{Met, Tally};
use crate::writer::compare_in_every_room;
use crate::writer_call::Growth;
use crate::writer_met::Ends;
use leskofar_reference::book::{kind, Book, Section, BOOL, INT};
use leskofar_reference::book_test::MOST_DEPTH;
use leskofar_reference::filled_books::filled_up;
use leskofar_reference::maker::Maker;
use leskofar_reference::refusal::{COUNT, DEPTH, FIELD, FOREST, NOT_IN_BOOK};
use std::fmt::Debug;

/// Compares a growth in every buffer, and holds its answer against the one
/// that is known. Gives the new book's records, or none.
pub fn expect(
    book: &[u8],
    growth: &Growth,
    known: Result<u32, u32>,
    ends: &mut Ends,
) -> Result<Maker, String> {
    let grown = compare_in_every_room(growth, book, ends)?;
    let told = match grown.answer.refusal {
        0 => Ok(grown.answer.number),
        refusal => Err(refusal),
    };
    same(told, known).map_err(|what| format!("{what}, of {growth:?}"))?;
    let records = grown.book().and_then(Book::new).map(Maker::of);
    Ok(records.unwrap_or_default())
}

pub fn same<T: PartialEq + Debug>(got: T, known: T) -> Result<(), String> {
    if got == known {
        Ok(())
    } else {
        Err(format!("{got:?}, known {known:?}"))
    }
}

fn worked_group(tally: &mut Tally) {
    tally.group("writer, the worked growths", || {
        let mut ends = Met::default();
        let empty = Maker::default().book();
        let m = expect(&empty, &trace_point(0, b"start"), Ok(1), &mut ends)?;
        let first = m.book();
        same(first.len(), 229)?;
        same(&m.letters[..], b"probe%0=start")?;
        same(m.names, vec![[0, 7], [7, 1], [8, 5]])?;
        same(m.constants, vec![[0, BOOL]])?;
        let [truth, id] = [[kind::BOOLEAN, 1], [kind::ID, 0]].map(|[k, a]| [k, a, 0, 0, 0, 0, 0]);
        same(m.terms, vec![truth, id, [kind::BUILT_IN, 1, 0, 2, 0, 0, 0]])?;
        same(m.lists, vec![1, 0])?;
        same(m.contexts, vec![[0, 2, 3]])?;
        let seven = term([kind::INTEGER, 7, 0, 0, 0, 0, 0], [&[], &[]]);
        let second = expect(&first, &seven, Ok(3), &mut ends)?.book();
        let m = expect(&second, &record(1, 3, INT, None), Ok(2), &mut ends)?;
        same(m.book().len(), 356)?;
        same(&m.letters[..], b"probe%0=startprobe%1")?;
        same(m.names[3..].to_vec(), vec![[13, 7]])?;
        same(m.contexts, vec![[0, 2, 3], [1, 5, 4]])?;
        same(m.lists, vec![1, 0, 4, 3])?;
        Ok(ends.said())
    });
}

/// Growths of a node below a parent.
fn below(parent: u32, term: u32) -> [Growth; 5] {
    [
        Growth::Node(parent, term, 1),
        extend(parent, term, Some(b"t")),
        Growth::Equality(parent, 0, term),
        record(parent, term, INT, None),
        trace_point(parent, b"t"),
    ]
}

fn depth_group(tally: &mut Tally) {
    tally.group("writer, nodes 400 and 401 deep", || {
        let mut ends = Met::default();
        let mut m = chain(MOST_DEPTH);
        let [used, free] = [0, m.boolean(false)];
        m.name("t");
        m.constant("c", INT);
        let book = m.book();
        let deepest = MOST_DEPTH as u32;
        for growth in below(deepest - 1, free) {
            expect(&book, &growth, Ok(deepest + 1), &mut ends)?;
        }
        for growth in below(deepest, free) {
            expect(&book, &growth, Err(DEPTH), &mut ends)?;
        }
        // Each refusal before the next.
        let fuller = filled_up(m, Section::Names, Section::Names.most()).book();
        let bad = Some(&b"\n"[..]);
        for (book, growth, refusal) in [
            (&book, extend(deepest, used, None), FOREST),
            (&book, extend(deepest, used, bad), FIELD),
            (&fuller, extend(deepest, used, bad), COUNT),
            (&fuller, extend(deepest + 1, used, bad), NOT_IN_BOOK),
        ] {
            expect(book, &growth, Err(refusal), &mut ends)?;
        }
        Ok(ends.said())
    });
}

fn outside_group(tally: &mut Tally) {
    tally.group("writer, parents and terms outside the book", || {
        let mut ends = Met::default();
        let mut m = chain(1);
        let free = m.boolean(false);
        m.name("t");
        m.constant("c", INT);
        let book = m.book();
        // The new node's and the new terms' own numbers are outside.
        for parent in [2, 3, 1 << 31, u32::MAX] {
            for growth in below(parent, free) {
                expect(&book, &growth, Err(NOT_IN_BOOK), &mut ends)?;
            }
        }
        for term in [free + 1, free + 2, free + 3, 1 << 31, u32::MAX] {
            let [node, extend, equality, record, _] = below(1, term);
            for growth in [node, extend, equality, record] {
                expect(&book, &growth, Err(NOT_IN_BOOK), &mut ends)?;
            }
        }
        // Every other number is a field of the new book.
        for growth in [
            Growth::Constant(2, INT),
            Growth::Constant(0, INT + 1),
            Growth::Node(1, free, 3),
            Growth::Equality(1, 1, free),
            record(1, free, INT + 1, None),
        ] {
            expect(&book, &growth, Err(FIELD), &mut ends)?;
        }
        Ok(ends.said())
    });
}

pub fn run(tally: &mut Tally) {
    worked_group(tally);
    depth_group(tally);
    outside_group(tally);
}
