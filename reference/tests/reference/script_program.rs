//! Program script: its input's shape, its stops and its refusals.

use crate::desk::string;
use leskofar_reference::book::INT;
use leskofar_reference::maker::{sample, Maker};
use leskofar_reference::script;
use leskofar_reference::script::{ASK, INPUT_MOST, MOVE, TEXT_SIZE};

const STOPPED: &str = "; stopped\n";

pub fn input(book: &[u8], calls: &[[u32; 3]]) -> Vec<u8> {
    let mut input = (book.len() as u32).to_le_bytes().to_vec();
    input.extend_from_slice(book);
    let numbers = calls.iter().flatten();
    input.extend(numbers.flat_map(|number| number.to_le_bytes()));
    input
}

fn written(input: &[u8]) -> String {
    string(&script(input))
}

fn empty_book() -> Vec<u8> {
    Maker::default().book()
}

#[test]
fn a_book_cut_short_stops_at_once() {
    for short in [&[][..], &[1, 0, 0], &[1, 0, 0, 0], &[0xFF; 4], &[0xFF; 90]] {
        assert_eq!(written(short), STOPPED);
    }
}

#[test]
fn a_longer_input_stops_at_once() {
    let mut whole = input(&empty_book(), &[[MOVE, 0, 0]]);
    let calls = (INPUT_MOST - whole.len()) / 12;
    whole.extend([1u8, 0, 0, 0, 0, 0, 0, 0, 0, 0, 0, 0].repeat(calls));
    assert_eq!(written(&whole), "");
    whole.resize(INPUT_MOST, 1);
    assert_eq!(written(&whole), STOPPED);
    // At the limit the calls before the stop are done, behind it none.
    let book = sample().maker.book();
    let mut whole = input(&book, &[[MOVE, 1, 0]]);
    whole.resize(INPUT_MOST, 1);
    let moved = "(push 1)\n(declare-fun x () Int)\n(assert (< 0 x))\n; stopped\n";
    assert_eq!(written(&whole), moved);
    whole.push(1);
    assert_eq!(written(&whole), STOPPED);
}

#[test]
fn a_bad_book_refuses_each_call() {
    assert_eq!(written(&input(&[1, 2, 3], &[])), "");
    assert_eq!(written(&input(&[], &[[MOVE, 9, 0]])), "; refused 2\n");
    let calls = [[MOVE, 0, 0], [ASK, 0, 0]];
    assert_eq!(
        written(&input(&[0; 80], &calls)),
        "; refused 2\n; refused 2\n"
    );
    // The shape of a call comes first.
    assert_eq!(written(&input(&[0; 80], &[[3, 0, 0]])), STOPPED);
    assert_eq!(written(&input(&[0; 80], &[[MOVE, 0, 1]])), STOPPED);
}

#[test]
fn calls_that_stop() {
    let book = sample().maker.book();
    let pops = "(push 1)\n(declare-fun x () Int)\n(assert (< 0 x))\n";
    for stop in [[0, 0, 0], [3, 1, 0], [MOVE, 1, 1]] {
        let calls = [[MOVE, 1, 0], stop, [MOVE, 2, 0]];
        assert_eq!(written(&input(&book, &calls)), [pops, STOPPED].concat());
    }
    let mut cut = input(&book, &[[MOVE, 1, 0], [MOVE, 0, 0]]);
    cut.pop();
    assert_eq!(written(&cut), [pops, STOPPED].concat());
}

#[test]
fn it_goes_on_after_refusals() {
    let sample = sample();
    let calls = [
        [MOVE, 4, 0],
        [ASK, 0, sample.maker.terms.len() as u32],
        [MOVE, 1, 0],
        [MOVE, 1, 0],
        [MOVE, 0, 0],
    ];
    assert_eq!(
        written(&input(&sample.maker.book(), &calls)),
        "; refused 7\n; refused 7\n(push 1)\n(declare-fun x () Int)\n(assert (< 0 x))\n(pop 1)\n"
    );
}

#[test]
fn the_empty_book_has_only_the_root() {
    let calls = [[MOVE, 0, 0], [MOVE, 1, 0], [ASK, 0, 0]];
    assert_eq!(
        written(&input(&empty_book(), &calls)),
        "; refused 7\n; refused 7\n"
    );
}

#[test]
fn a_text_may_fill_the_buffer() {
    // A name once declared and eight times asserted; the operator's length
    // makes up the rest. Both fit the letters.
    let asked = |length: usize, operator: usize| {
        let mut m = Maker::default();
        let long = m.constant(&"x".repeat(length), INT);
        let args: Vec<u32> = (0..8).map(|_| m.id(long)).collect();
        let goal = m.built_in(&"y".repeat(operator), &args);
        let calls = [[ASK, 0, goal], [MOVE, 0, 0], [ASK, 0, args[0]]];
        written(&input(&m.book(), &calls))
    };
    let pops = "(pop 1)\n(pop 1)\n";
    let ask_size = |whole: &str| whole.find("(check-sat)\n").map(|at| at + 12);
    let length = 7_200;
    let base = ask_size(&asked(length, 1)).expect("accepted");
    let filling = TEXT_SIZE - base + 1;
    let full = asked(length, filling);
    assert_eq!(ask_size(&full), Some(TEXT_SIZE));
    assert!(full[TEXT_SIZE..].starts_with(pops));
    let over = asked(length, filling + 1);
    assert!(over.starts_with("; refused 10\n(push 1)\n(declare-fun x"));
    assert!(over.ends_with(pops));
}
