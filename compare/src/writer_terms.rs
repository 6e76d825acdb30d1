//! New terms whose answers are known beforehand: their children and patterns,
//! and how they are handed over.

use crate::made_growths::term;
use crate::tally::{Met, Tally};
use crate::writer::compare_in_every_room;
use crate::writer_call::Growth;
use crate::writer_edges::expect;
use leskofar_reference::book::{kind, TERM_FIELDS};
use leskofar_reference::filled_books::tiny;
use leskofar_reference::refusal::{FIELD, FOREST};

const NO_LISTS: [&[u32]; 2] = [&[], &[]];

fn child_group(tally: &mut Tally) {
    tally.group("writer, children at the new term's own number", || {
        let mut ends = Met::default();
        let book = tiny().book();
        let own = 2;
        for (child, known) in [
            (own - 1, Ok(own)),
            (own, Err(FOREST)),
            (own + 1, Err(FIELD)),
            (u32::MAX, Err(FIELD)),
        ] {
            for growth in [
                term([kind::BUILT_IN, 0, 0, 0, 0, 0, 0], [&[0, child], &[]]),
                term([kind::LET, 0, 0, child, 0, 0, 0], NO_LISTS),
                term([kind::LET, 0, child, 0, 0, 0, 0], NO_LISTS),
                term([kind::QUANTIFIER, 1, 0, 0, 0, 0, child], NO_LISTS),
            ] {
                expect(&book, &growth, known, &mut ends)?;
            }
        }
        Ok(ends.said())
    });
}

fn pattern_group(tally: &mut Tally) {
    tally.group("writer, patterns that a new quantifier lists", || {
        let mut ends = Met::default();
        let listing = |constants: &[u32], patterns: &[u32]| {
            let record = [kind::QUANTIFIER, 1, 0, 0, 0, 0, 1];
            term(record, [constants, patterns])
        };
        let mut m = tiny();
        let [hinted, empty] = [m.pattern(&[0]), m.pattern(&[])];
        for (growth, known) in [
            (listing(&[0], &[hinted]), Ok(2)),
            (listing(&[], &[empty, empty, hinted]), Ok(2)),
            (listing(&[], &[hinted, hinted]), Err(FOREST)),
            (listing(&[], &[empty + 1]), Err(FIELD)),
            (listing(&[1], &[hinted]), Err(FIELD)),
        ] {
            expect(&m.book(), &growth, known, &mut ends)?;
        }
        // Its term is in use: below a term, at a node, by another listing.
        let [mut below, mut at_node, mut listed] = [(); 3].map(|()| m.clone());
        below.built_in("not", &[0]);
        at_node.context(0, 0);
        let body = listed.boolean(true);
        listed.quantifier(true, &[], &[hinted], body);
        for m in [below, at_node, listed] {
            let growth = listing(&[], &[hinted]);
            expect(&m.book(), &growth, Err(FOREST), &mut ends)?;
        }
        Ok(ends.said())
    });
}

/// A kind with each field set by itself, and with every choice of lists.
fn handed(kind: u32) -> Vec<Growth> {
    let mut growths = Vec::new();
    for field in 1..TERM_FIELDS {
        for number in [0, 1, 2, u32::MAX] {
            for lists in [NO_LISTS, [&[0], &[]], [&[], &[0]], [&[0], &[0]]] {
                let mut record = [kind, 0, 0, 0, 0, 0, 0];
                record[field] = number;
                growths.push(term(record, lists));
            }
        }
    }
    growths
}

fn handed_group(tally: &mut Tally) {
    tally.group("writer, terms handed over wrongly", || {
        let mut ends = Met::default();
        let book = tiny().book();
        for kind in (0..=kind::QUANTIFIER + 1).chain([u32::MAX]) {
            for growth in handed(kind) {
                compare_in_every_room(&growth, &book, &mut ends)?;
            }
            // Lists that are cut inside a number, or have no range.
            for lengths in [[1, 0], [0, 1], [3, 0], [5, 4], [4, 6], [7, 7]] {
                let lists = lengths.map(|length| vec![0; length]);
                let growth = Growth::Term([kind, 0, 0, 0, 0, 0, 0], lists);
                expect(&book, &growth, Err(FIELD), &mut ends)?;
            }
        }
        // Starts and counts as they will be are no less wrong.
        for growth in [
            term([kind::BUILT_IN, 0, 0, 1, 0, 0, 0], [&[0], &[]]),
            term([kind::FUNCTION, 0, 0, 1, 0, 0, 0], [&[0], &[]]),
            term([kind::QUANTIFIER, 0, 0, 1, 0, 0, 0], [&[0], &[]]),
            term([kind::QUANTIFIER, 0, 0, 1, 1, 1, 0], [&[0], &[0]]),
        ] {
            expect(&book, &growth, Err(FIELD), &mut ends)?;
        }
        Ok(ends.said())
    });
}

pub fn run(tally: &mut Tally) {
    child_group(tally);
    pattern_group(tally);
    handed_group(tally);
}
