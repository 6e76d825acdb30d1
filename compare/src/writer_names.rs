//! Names and traces whose answers are known beforehand: their letters, empty
//! ones, and which name a trace takes.

use crate::made_growths::{extend, name, record, trace_point};
use crate::tally::{Met, Tally};
use crate::writer_call::Growth;
use crate::writer_edges::{expect, same};
use leskofar_reference::book::INT;
use leskofar_reference::book_test::{FIRST_LETTER, LAST_LETTER};
use leskofar_reference::filled_books::tiny;
use leskofar_reference::refusal::FIELD;

/// The calls that take a trace, in the tiny book.
fn with_trace(trace: &[u8]) -> [Growth; 3] {
    [
        extend(0, 0, Some(trace)),
        record(0, 0, INT, Some(trace)),
        trace_point(0, trace),
    ]
}

fn letter_group(tally: &mut Tally) {
    tally.group("writer, letters of names and traces", || {
        let mut ends = Met::default();
        let book = tiny().book();
        for letter in [0x1F, FIRST_LETTER, LAST_LETTER, 0x7F] {
            let is_good = (FIRST_LETTER..=LAST_LETTER).contains(&letter);
            let number = |number: u32| if is_good { Ok(number) } else { Err(FIELD) };
            for text in [&[letter][..], &[b'a', letter, b'b']] {
                expect(&book, &name(text), number(2), &mut ends)?;
                for growth in with_trace(text) {
                    expect(&book, &growth, number(1), &mut ends)?;
                }
            }
        }
        Ok(ends.said())
    });
}

fn empty_group(tally: &mut Tally) {
    tally.group("writer, empty texts, and none", || {
        let mut ends = Met::default();
        let book = tiny().book();
        let m = expect(&book, &name(b""), Ok(2), &mut ends)?;
        same(m.names[2], [0, 0])?;
        // It is found again, but by append_name.
        let m = expect(&m.book(), &name(b""), Ok(3), &mut ends)?;
        for growth in with_trace(b"") {
            let traced = expect(&m.book(), &growth, Ok(1), &mut ends)?;
            same(traced.contexts[0][2], 2 + 1)?;
        }
        // None at all, and then the constant's name.
        for (growth, trace) in [(extend(0, 0, None), 0), (record(0, 0, INT, None), 2 + 1)] {
            let traced = expect(&book, &growth, Ok(1), &mut ends)?;
            same(traced.contexts[0][2], trace)?;
        }
        Ok(ends.said())
    });
}

fn taken_groups(tally: &mut Tally) {
    tally.group("writer, a trace that the call itself appends", || {
        let mut ends = Met::default();
        let book = tiny().book();
        // The tiny book has two names; the calls append `probe%0` and `=`.
        for (trace, taken, names) in [
            (&b"="[..], 3, 4),
            (b"probe%0", 2, 4),
            (b"n", 0, 4),
            (b"probe%1", 4, 5),
        ] {
            for growth in [record(0, 0, INT, Some(trace)), trace_point(0, trace)] {
                let m = expect(&book, &growth, Ok(1), &mut ends)?;
                same(m.contexts[0][2], taken + 1)?;
                same(m.names.len(), names)?;
            }
        }
        Ok(ends.said())
    });
    tally.group("writer, names that stand twice", || {
        let mut ends = Met::default();
        let mut m = tiny();
        let [first, ..] = ["t", "=", "probe%0", "t", "=", "probe%0"].map(|text| m.name(text));
        let book = m.book();
        for growth in with_trace(b"t") {
            let grown = expect(&book, &growth, Ok(1), &mut ends)?;
            same(grown.names.len(), m.names.len())?;
            same(grown.contexts[0][2], first + 1)?;
        }
        let equality = Growth::Equality(0, 0, 0);
        let grown = expect(&book, &equality, Ok(1), &mut ends)?;
        same(grown.terms.last().map(|term| term[1]), Some(first + 1))?;
        let next = m.names.len() as u32;
        expect(&book, &name(b"t"), Ok(next), &mut ends)?;
        Ok(ends.said())
    });
}

pub fn run(tally: &mut Tally) {
    letter_group(tally);
    empty_group(tally);
    taken_groups(tally);
}
