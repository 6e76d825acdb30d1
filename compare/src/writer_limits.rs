//! Growths of books that are full or nearly so: each section at its limit and
//! one over it, by each call.

use crate::made_growths::{each_call, extend, name, record, term, trace_point};
use crate::tally::{Met, Tally};
use crate::writer::compare_in_every_room;
use crate::writer_call::Growth;
use crate::writer_edges::{expect, same};
use leskofar_reference::book::{kind, Section, INT, NUMBER_SIZE};
use leskofar_reference::filled_books::{filled_up, tiny};
use leskofar_reference::maker::Maker;
use leskofar_reference::refusal::{COUNT, FIELD, FOREST};

/// What a record appends beside its trace.
const PROBE_AND_EQ: &[u8] = b"probe%0=";

/// How many records of a section each call of `each_call` appends to the tiny
/// book, with a text of one letter.
fn appended(growth: &Growth, section: Section) -> usize {
    use Section::{Constants, Contexts, Letters, Lists, Names, Terms};
    match (growth, section) {
        (Growth::Name(_), Letters | Names) => 1,
        (Growth::Constant(..), Constants) => 1,
        (Growth::Term(..), Terms) => 1,
        (Growth::Term(..), Lists) => 2,
        (Growth::Node(..), Contexts) => 1,
        (Growth::Extend(..), Letters | Names | Contexts) => 1,
        (Growth::Equality(..), Letters | Names | Contexts) => 1,
        (Growth::Equality(..) | Growth::Record(..), Terms | Lists) => 2,
        (Growth::TracePoint(..), Terms) => 3,
        (Growth::TracePoint(..), Lists) => 2,
        (Growth::Record(..) | Growth::TracePoint(..), Letters) => PROBE_AND_EQ.len() + 1,
        (Growth::Record(..) | Growth::TracePoint(..), Names) => 3,
        (Growth::Record(..) | Growth::TracePoint(..), Constants | Contexts) => 1,
        _ => 0,
    }
}

fn section_group(tally: &mut Tally) {
    tally.group("writer, each section at its limit, by each call", || {
        let mut ends = Met::default();
        for growth in each_call(0, b"t") {
            for section in Section::ALL {
                let many = appended(&growth, section);
                for lacking in [many + 1, many, many.saturating_sub(1), 0] {
                    let book = filled_up(tiny(), section, section.most() - lacking).book();
                    let grown = compare_in_every_room(&growth, &book, &mut ends)?;
                    let known = if lacking < many { COUNT } else { 0 };
                    same(grown.answer.refusal, known)
                        .map_err(|what| format!("{what}, {section:?}, of {growth:?}"))?;
                }
            }
        }
        Ok(ends.said())
    });
}

fn name_group(tally: &mut Tally) {
    tally.group("writer, 512 names, known and unknown traces", || {
        let mut ends = Met::default();
        let mut m = tiny();
        for text in ["=", "probe%0"] {
            m.name(text);
        }
        let book = filled_up(m, Section::Names, Section::Names.most()).book();
        for (trace, known) in [
            (&b"n"[..], Ok(1)),
            (b"", Ok(1)),
            (b"=", Ok(1)),
            (b"nn", Err(COUNT)),
            (b"\n", Err(COUNT)),
        ] {
            expect(&book, &extend(0, 0, Some(trace)), known, &mut ends)?;
            expect(&book, &record(0, 0, INT, Some(trace)), known, &mut ends)?;
            expect(&book, &trace_point(0, trace), known, &mut ends)?;
            expect(&book, &name(trace), Err(COUNT), &mut ends)?;
        }
        expect(&book, &extend(0, 0, None), Ok(1), &mut ends)?;
        expect(&book, &record(0, 0, INT, None), Ok(1), &mut ends)?;
        Ok(ends.said())
    });
}

fn letter_group(tally: &mut Tally) {
    tally.group("writer, 8,192 and 8,193 letters", || {
        let mut ends = Met::default();
        let free = Section::Letters.most() - tiny().letters.len();
        let book = tiny().book();
        for (growth, number, others) in [
            (name as fn(&[u8]) -> Growth, 2, 0),
            (|text| extend(0, 0, Some(text)), 1, 0),
            (|text| record(0, 0, INT, Some(text)), 1, PROBE_AND_EQ.len()),
            (|text| trace_point(0, text), 1, PROBE_AND_EQ.len()),
        ] {
            for (letter, known) in [(b'a', Ok(number)), (0, Err(FIELD))] {
                let longer = vec![letter; free - others + 1];
                expect(&book, &growth(&longer), Err(COUNT), &mut ends)?;
                expect(&book, &growth(&longer[1..]), known, &mut ends)?;
            }
        }
        Ok(ends.said())
    });
}

/// A term with lists of zeros, so many each.
fn zeros(kind: u32, lengths: [usize; 2]) -> Growth {
    let lists = lengths.map(|length| vec![0; length * NUMBER_SIZE]);
    Growth::Term([kind, 0, 0, 0, 0, 0, 0], lists)
}

/// The tiny book with an empty pattern.
fn with_a_pattern() -> Maker {
    let mut m = tiny();
    m.pattern(&[]);
    m
}

fn list_group(tally: &mut Tally) {
    let most = Section::Lists.most();
    tally.group("writer, lists as long as can be, and longer", || {
        let mut ends = Met::default();
        let book = with_a_pattern().book();
        for [constants, patterns] in [[most, 0], [0, most], [most - 7, 7]] {
            let fitting = zeros(kind::QUANTIFIER, [constants, patterns]);
            expect(&book, &fitting, Ok(2), &mut ends)?;
            let longer = zeros(kind::QUANTIFIER, [constants, patterns + 1]);
            expect(&book, &longer, Err(COUNT), &mut ends)?;
        }
        for (kind, lists, refusal) in [
            (kind::BUILT_IN, [most, 0], FOREST),
            (kind::BUILT_IN, [most + 1, 0], COUNT),
            (kind::FUNCTION, [most + 1, 0], COUNT),
            // What the kind has no range for is not counted.
            (kind::BUILT_IN, [0, most + 1], FIELD),
            (kind::FUNCTION, [1, most + 1], FIELD),
            (kind::BOOLEAN, [most + 1, most + 1], FIELD),
            (kind::QUANTIFIER + 1, [most + 1, 0], FIELD),
            (u32::MAX, [0, most + 1], FIELD),
        ] {
            expect(&book, &zeros(kind, lists), Err(refusal), &mut ends)?;
        }
        Ok(ends.said())
    });
}

fn full_lists_group(tally: &mut Tally) {
    tally.group("writer, lists at the end of a full section", || {
        let mut ends = Met::default();
        let forall = [kind::QUANTIFIER, 1, 0, 0, 0, 0, 1];
        let listed = term(forall, [&[0, 0], &[0, 0]]);
        let most = Section::Lists.most();
        let [nearly, fuller] = [most - 4, most]
            .map(|entries| filled_up(with_a_pattern(), Section::Lists, entries).book());
        expect(&nearly, &listed, Ok(2), &mut ends)?;
        // An empty range starts at 0, and a number that is cut is no entry.
        let grown = expect(&fuller, &term(forall, [&[], &[]]), Ok(2), &mut ends)?;
        same(grown.terms[2], forall)?;
        for book in [&nearly, &fuller] {
            for cut in 1..NUMBER_SIZE {
                let growth = Growth::Term(forall, [vec![], vec![0; cut]]);
                expect(book, &growth, Err(FIELD), &mut ends)?;
            }
        }
        let one_more = Growth::Term(forall, [vec![], vec![0; NUMBER_SIZE]]);
        expect(&fuller, &one_more, Err(COUNT), &mut ends)?;
        Ok(ends.said())
    });
}

pub fn run(tally: &mut Tally) {
    section_group(tally);
    name_group(tally);
    letter_group(tally);
    list_group(tally);
    full_lists_group(tally);
}
