//! A listing's refusals, 1 to 7 and 10, and their order.

use crate::book_refusals::faulty;
use crate::desk::buffer;
use crate::listing::{listed, listed_from, ROOM, TITLE};
use leskofar_reference::book_test::SCRATCH_SIZE;
use leskofar_reference::listing;
use leskofar_reference::maker::{sample, Maker};
use leskofar_reference::refusal::{NOT_IN_BOOK, SCRATCH_SHORT, TOO_LONG};

#[test]
fn a_listing_filling_its_buffer_passes() {
    let sample = sample();
    let book = sample.maker.book();
    let whole = listed(&sample.maker, 2, sample.goal);
    let short = whole.len() - 1;
    let exact = listed_from(&book, 2, sample.goal, whole.len());
    assert_eq!(exact.as_deref(), Ok(&whole[..]));
    for room in [short, TITLE.len(), 1, 0] {
        assert_eq!(listed_from(&book, 2, sample.goal, room), Err(TOO_LONG));
    }
}

#[test]
fn seven_is_for_nodes_and_goals_outside_and_comes_before_ten() {
    let sample = sample();
    let book = sample.maker.book();
    let terms = sample.maker.terms.len() as u32;
    for room in [ROOM, 0] {
        for node in [4, u32::MAX] {
            assert_eq!(listed_from(&book, node, 0, room), Err(NOT_IN_BOOK));
            assert_eq!(listed_from(&book, node, terms, room), Err(NOT_IN_BOOK));
        }
        for goal in [terms, u32::MAX] {
            assert_eq!(listed_from(&book, 3, goal, room), Err(NOT_IN_BOOK));
        }
        for goal in [0, 1, u32::MAX] {
            let empty = Maker::default().book();
            assert_eq!(listed_from(&empty, 0, goal, room), Err(NOT_IN_BOOK));
        }
    }
    assert!(listed_from(&book, 3, terms - 1, ROOM).is_ok());
}

#[test]
fn one_to_six_come_before_seven() {
    for (book, refusal) in faulty() {
        for (node, goal) in [(0, 0), (u32::MAX, 0), (0, u32::MAX)] {
            assert_eq!(listed_from(&book, node, goal, 0), Err(refusal));
        }
        let mut scratch = buffer(SCRATCH_SIZE - 1);
        let answer = listing(&book, &mut scratch, u32::MAX, 0, &mut []);
        assert_eq!(answer, Err(SCRATCH_SHORT));
        assert_eq!(scratch, buffer(SCRATCH_SIZE - 1));
    }
}
