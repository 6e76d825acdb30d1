//! The lists of a new term: how they are handed over, and how long they are.

use crate::writer_desk::{grown, refusal, Growth};
use crate::writer_refusals::TRUE;
use leskofar_reference::book::{kind, Section};
use leskofar_reference::filled_books::tiny;
use leskofar_reference::refusal::{COUNT, FIELD, FOREST};

#[test]
fn four_is_for_what_is_handed_over_wrongly() {
    let book = tiny().book();
    let not = [kind::BUILT_IN, 0, 0, 0, 0, 0, 0];
    let forall = [kind::QUANTIFIER, 1, 0, 0, 0, 0, 1];
    // Starts and counts are filled in, and so are no part of what is given.
    for (record, fields) in [(not, &[2, 3, 4, 5, 6][..]), (forall, &[2, 3, 4, 5])] {
        assert!(grown(&book, &Growth::term(record, [&[], &[]])).is_ok());
        for field in fields {
            let mut given = record;
            given[*field] = 1;
            // Also where it is the count that the range will have.
            for lists in [[&[][..], &[]], [&[0], &[]]] {
                assert_eq!(refusal(&book, &Growth::term(given, lists)), FIELD);
            }
        }
    }
    // Lists that the kind has no range for.
    for kind in 0..=9 {
        let ranges = match kind {
            4 | 5 => 1,
            8 => 2,
            _ => 0,
        };
        for (at, lists) in [[&[0][..], &[]], [&[], &[0]]].into_iter().enumerate() {
            if at >= ranges {
                let growth = Growth::term([kind, 0, 0, 0, 0, 0, 0], lists);
                assert_eq!(refusal(&book, &growth), FIELD);
            }
        }
    }
    // A number that is cut, and bytes of none.
    for length in [1, 2, 3, 5, 6, 7] {
        for lists in [[vec![0; length], vec![]], [vec![], vec![0; length]]] {
            for record in [not, forall, TRUE] {
                assert_eq!(refusal(&book, &Growth::Term(record, lists.clone())), FIELD);
            }
        }
    }
}

#[test]
fn a_long_list_is_three_only_where_the_kind_has_a_range_for_it() {
    let book = tiny().book();
    let long = vec![0; 4 * (Section::Lists.most() + 1)];
    for (kind, at, number) in [
        (4, 0, COUNT),
        (4, 1, FIELD),
        (5, 0, COUNT),
        (8, 0, COUNT),
        (8, 1, COUNT),
        (0, 0, FIELD),
        (7, 1, FIELD),
        (9, 0, FIELD),
        (9, 1, FIELD),
        (u32::MAX, 0, FIELD),
    ] {
        let mut lists = [vec![], vec![]];
        lists[at] = long.clone();
        let growth = Growth::Term([kind, 0, 0, 0, 0, 0, 0], lists);
        assert_eq!(refusal(&book, &growth), number, "{kind} {at}");
    }
    // Both together are counted, but not a number that is cut.
    let half = vec![0; 4 * (Section::Lists.most() / 2)];
    for (more, number) in [(0, FOREST), (1, FIELD), (3, FIELD), (4, COUNT)] {
        let mut m = tiny();
        m.pattern(&[]);
        let second = vec![0; half.len() + more];
        let growth = Growth::Term([8, 0, 0, 0, 0, 0, 2], [half.clone(), second]);
        assert_eq!(refusal(&m.book(), &growth), number);
    }
}
