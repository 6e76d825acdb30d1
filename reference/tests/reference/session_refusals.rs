//! Refusals 20 to 23, and what an image of no session is.

use crate::desk::Desk;
use leskofar_reference::book::INT;
use leskofar_reference::fresh_image;
use leskofar_reference::image::{IMAGE_SIZE, NARROW_SIZE};
use leskofar_reference::maker::{sample, Maker};
use leskofar_reference::refusal::{
    CONTENTS, NO_MODEL_OWED, NO_REPLY_OWED, SESSION, SOMETHING_OWED,
};

/// Places in the image.
const KIND: usize = 0;
const NODE: usize = 4;
const GOAL: usize = 8;
const OWED: usize = 12;
const LEVELS: usize = 16;
/// The bytes of a level, the low one first.
const LEVEL: usize = 2;
const TYPES: usize = LEVELS;
const CONSTANTS: usize = TYPES + 64 * LEVEL;
const FUNCTIONS: usize = CONSTANTS + 256 * LEVEL;
const AXIOMS: usize = FUNCTIONS + 128 * LEVEL;
const LITERALS: usize = AXIOMS + 128 * LEVEL;

/// All four calls, each on the same session; they are refused `number`.
fn all_refuse(desk: &mut Desk, number: u32) {
    assert_eq!(desk.move_to(0), Err(number));
    assert_eq!(desk.ask(0, 0), Err(number));
    assert_eq!(desk.reply(false, b"unsat"), Err(number));
    assert_eq!(desk.model(b"unsat", None), Err(number));
}

fn sample_at(node: u32) -> Desk {
    let mut desk = Desk::new(&sample().maker);
    desk.move_to(node).expect("accepted");
    desk
}

#[test]
fn the_fresh_image() {
    let image = fresh_image();
    assert_eq!(image.len(), 3_216);
    assert_eq!(image[..4], [2, 0, 0, 0]);
    assert!(image[4..].iter().all(|byte| *byte == 0));
}

#[test]
fn the_image_after_a_move() {
    let desk = sample_at(2);
    let mut expected = fresh_image();
    expected[NODE] = 2;
    expected[CONSTANTS] = 1; // x
    expected[CONSTANTS + LEVEL] = 2; // y
    expected[FUNCTIONS] = 2;
    expected[AXIOMS] = 2;
    assert_eq!(desk.image, expected);
}

#[test]
fn the_image_of_an_open_question() {
    let sample = sample();
    let mut desk = sample_at(2);
    let at_node = desk.image.clone();
    desk.ask(2, sample.goal).expect("accepted");
    let mut expected = at_node.clone();
    expected[GOAL] = sample.goal as u8;
    expected[OWED] = 1;
    assert_eq!(desk.image, expected);
    desk.reply(false, b"sat").expect("accepted");
    expected[OWED] = 2;
    assert_eq!(desk.image, expected);
    desk.model(b"sat", None).expect("accepted");
    assert_eq!(desk.image, at_node);
}

#[test]
fn twenty_is_for_images_of_no_session() {
    let mut desk = sample_at(3);
    let good = desk.image.clone();
    for size in [0, 1, LEVELS, NARROW_SIZE, IMAGE_SIZE - 1, IMAGE_SIZE + 1] {
        desk.image = good.clone();
        desk.image.resize(size, 0);
        all_refuse(&mut desk, SESSION);
    }
    for (at, byte) in [
        (KIND, 0),
        (KIND, 1),
        (KIND, 3),
        (KIND + 3, 1),
        (OWED, 3),
        (OWED, 4),
        (OWED + 3, 1),
    ] {
        desk.image = good.clone();
        desk.image[at] = byte;
        all_refuse(&mut desk, SESSION);
    }
}

#[test]
fn twenty_is_for_sessions_that_no_fresh_move_has() {
    let mut desk = sample_at(3);
    let good = desk.image.clone();
    for (at, byte) in [
        (NODE, 0),
        (NODE, 2),
        (NODE, 4),
        (NODE + 3, 0xFF),
        (GOAL, 1),
        (GOAL + 3, 1),
        (TYPES, 1),
        (CONSTANTS, 0),
        (CONSTANTS, 2),
        (CONSTANTS + 1, 1),
        (CONSTANTS + LEVEL, 1),
        (CONSTANTS + 3 * LEVEL, 1),
        (FUNCTIONS, 1),
        (AXIOMS, 1),
        (LITERALS, 1),
        (IMAGE_SIZE - 1, 1),
    ] {
        desk.image = good.clone();
        desk.image[at] = byte;
        all_refuse(&mut desk, SESSION);
    }
    // The book comes first.
    desk.book.push(0);
    all_refuse(&mut desk, CONTENTS);
}

#[test]
fn nodes_of_equal_levels_are_each_valid() {
    let mut desk = sample_at(3);
    desk.image[NODE] = 1;
    assert_eq!(desk.move_to(1).as_deref(), Ok(""));
}

#[test]
fn twenty_is_for_a_node_whose_move_lacks_an_axiom() {
    let mut m = Maker::default();
    let f = m.function("f", &[], INT);
    let missing = m.axiom(None, &[]);
    m.explained_by(f, &[missing]);
    let term = m.apply(f, &[]);
    m.context(0, term);
    let mut desk = Desk::new(&m);
    desk.image[NODE] = 1;
    for level in [0, 1] {
        desk.image[FUNCTIONS] = level;
        all_refuse(&mut desk, SESSION);
    }
    // An open goal is tested only to be within the book.
    let mut desk = Desk::new(&m);
    desk.image[OWED] = 1;
    desk.image[GOAL] = term as u8;
    assert!(desk.reply(false, b"unsat").is_ok());
    assert_eq!(desk.image, fresh_image());
}

#[test]
fn twenty_is_for_an_open_goal_outside_the_book() {
    let sample = sample();
    for owed in [1, 2] {
        let mut desk = sample_at(1);
        desk.image[OWED] = owed;
        desk.image[GOAL] = sample.maker.terms.len() as u8;
        all_refuse(&mut desk, SESSION);
        desk.image[GOAL] -= 1;
        all_refuse_by_owed(&mut desk, owed);
    }
    let mut desk = Desk::new(&Maker::default());
    desk.image[OWED] = 1;
    assert_eq!(desk.reply(false, b"unsat"), Err(SESSION));
}

/// While something is owed, the calls that are not its turn.
fn all_refuse_by_owed(desk: &mut Desk, owed: u8) {
    assert_eq!(desk.move_to(0), Err(SOMETHING_OWED));
    assert_eq!(desk.move_to(1), Err(SOMETHING_OWED));
    assert_eq!(desk.ask(0, 0), Err(SOMETHING_OWED));
    if owed == 1 {
        assert_eq!(desk.model(b"unsat", None), Err(NO_MODEL_OWED));
    } else {
        assert_eq!(desk.reply(false, b"unsat"), Err(NO_REPLY_OWED));
    }
}

#[test]
fn twenty_two_and_three_when_nothing_is_owed() {
    let mut desk = sample_at(1);
    desk.text_size = 0;
    assert_eq!(desk.reply(false, b"unsat"), Err(NO_REPLY_OWED));
    assert_eq!(desk.reply(true, b"error"), Err(NO_REPLY_OWED));
    assert_eq!(desk.model(b"sat", None), Err(NO_MODEL_OWED));
    // 23 comes before 8.
    assert_eq!(desk.model(b"unsat", None), Err(NO_MODEL_OWED));
}

/// 20 stands before 21 to 23, 8, 9 and 10.
#[test]
fn twenty_comes_before_what_follows_it() {
    let mut m = sample().maker;
    let g = m.function("g", &[], INT);
    let missing = m.axiom(None, &[]);
    m.explained_by(g, &[missing]);
    let lacking = m.apply(g, &[]);
    for owed in [0, 1, 2] {
        let mut desk = Desk::new(&m);
        desk.text_size = 0;
        desk.image[OWED] = owed;
        desk.image[TYPES] = 1;
        all_refuse(&mut desk, SESSION);
        assert_eq!(desk.ask(0, lacking), Err(SESSION));
        assert_eq!(desk.ask(1, lacking), Err(SESSION));
        assert_eq!(desk.reply(true, b"error"), Err(SESSION));
        assert_eq!(desk.model(b"sat", Some(b"model")), Err(SESSION));
    }
}

/// 21 stands before 9 and 10, 22 before 10, 23 before 8 and 10.
#[test]
fn what_is_owed_comes_before_eight_to_ten() {
    let mut desk = sample_at(1);
    desk.image[OWED] = 1;
    for owed in [1, 2] {
        desk.image[OWED] = owed;
        desk.text_size = 0;
        desk.reason_size = 0;
        all_refuse_by_owed(&mut desk, owed);
        assert_eq!(desk.move_to(3), Err(SOMETHING_OWED));
    }
}
