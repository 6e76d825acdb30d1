//! The refusals of a list of nodes, 1 to 6, 3 for its length and 7, and their
//! order.

use crate::book_refusals::faulty;
use crate::desk::buffer;
use crate::nodes::{list, tested_from};
use leskofar_reference::audit_samples::lacking;
use leskofar_reference::book::NUMBER_SIZE;
use leskofar_reference::book_test::SCRATCH_SIZE;
use leskofar_reference::maker::{sample, Maker};
use leskofar_reference::nodes::MOST_NODES;
use leskofar_reference::nodes_test;
use leskofar_reference::refusal::{COUNT, NOT_IN_BOOK, SCRATCH_SHORT};

/// Nodes of `lacking`.
const HARMLESS: u32 = 1;
const FAILS: u32 = 2;
const LAST: u32 = 4;
/// Bytes of the longest list.
const LIST_SIZE: usize = MOST_NODES * NUMBER_SIZE;

/// Lists that are refused or fail on every good book.
fn bad_lists() -> [Vec<u8>; 4] {
    [
        list(&[u32::MAX]),
        list(&[u32::MAX; MOST_NODES + 1]),
        list(&[0; MOST_NODES + 1]),
        vec![0; NUMBER_SIZE + 1],
    ]
}

#[test]
fn seven_is_for_any_node_outside_wherever_it_stands() {
    let book = lacking().book();
    for outside in [LAST + 1, LAST + 2, 1 << 31, u32::MAX] {
        for nodes in [
            &[outside][..],
            &[outside, HARMLESS],
            &[HARMLESS, outside],
            // Behind a position that fails, and before it.
            &[FAILS, outside],
            &[FAILS, 0, 0, 0, 0, 0, 0, 0, 0, outside],
            &[outside, FAILS],
        ] {
            assert_eq!(tested_from(&book, &list(nodes)), Err(NOT_IN_BOOK));
        }
        let mut nodes = [FAILS; MOST_NODES];
        nodes[MOST_NODES - 1] = outside;
        assert_eq!(tested_from(&book, &list(&nodes)), Err(NOT_IN_BOOK));
    }
    assert_eq!(tested_from(&book, &list(&[LAST])), Ok(None));
    let empty = Maker::default().book();
    assert_eq!(tested_from(&empty, &list(&[0])), Ok(None));
    assert_eq!(tested_from(&empty, &list(&[1])), Err(NOT_IN_BOOK));
}

#[test]
fn a_number_that_is_cut_is_one_more_and_no_node() {
    let book = lacking().book();
    let zeros = [0; LIST_SIZE + 2 * NUMBER_SIZE];
    let answer = |length: usize| tested_from(&book, &zeros[..length]);
    for length in [0, 4, 8, LIST_SIZE - NUMBER_SIZE, LIST_SIZE] {
        assert_eq!(answer(length), Ok(None), "{length}");
    }
    for length in [1, 2, 3, 5, 6, 7, 9] {
        assert_eq!(answer(length), Err(NOT_IN_BOOK), "{length}");
    }
    for cut in 1..NUMBER_SIZE {
        assert_eq!(answer(LIST_SIZE - cut), Err(NOT_IN_BOOK));
    }
    for longer in 1..=2 * NUMBER_SIZE {
        assert_eq!(answer(LIST_SIZE + longer), Err(COUNT));
    }
    // Behind a position that fails.
    let mut nodes = list(&[FAILS]);
    nodes.push(0);
    assert_eq!(tested_from(&book, &nodes), Err(NOT_IN_BOOK));
}

#[test]
fn three_for_a_longer_list_comes_before_seven() {
    for m in [lacking(), sample().maker, Maker::default()] {
        let book = m.book();
        for node in [0, 1, FAILS, u32::MAX] {
            for longer in [1, 2, MOST_NODES] {
                let nodes = list(&vec![node; MOST_NODES + longer]);
                assert_eq!(tested_from(&book, &nodes), Err(COUNT));
            }
        }
    }
    let book = lacking().book();
    let outside = list(&[u32::MAX; MOST_NODES]);
    assert_eq!(tested_from(&book, &outside), Err(NOT_IN_BOOK));
}

#[test]
fn one_to_six_come_first() {
    for (book, refusal) in faulty() {
        for nodes in bad_lists().iter().chain([&vec![]]) {
            assert_eq!(tested_from(&book, nodes), Err(refusal));
        }
    }
}

#[test]
fn a_short_scratch_is_not_touched() {
    let good = lacking().book();
    let bad = &good[1..];
    for book in [&good[..], bad] {
        for nodes in bad_lists().iter().chain([&list(&[FAILS]), &vec![]]) {
            for size in [0, 1, SCRATCH_SIZE - 1] {
                let mut scratch = buffer(size);
                let answer = nodes_test(book, &mut scratch, nodes);
                assert_eq!(answer, Err(SCRATCH_SHORT));
                assert_eq!(scratch, buffer(size));
            }
        }
    }
}
