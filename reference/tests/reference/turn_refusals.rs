//! The turns' refusals, and their order.

use crate::desk::{buffer, Desk};
use crate::turns::{
    chain, narrowed, of_narrow, spelled, turned, wide, widened, Turn, CONSTANTS, LEVELS,
    NARROW_SIZE, WIDE_SIZE,
};
use leskofar_reference::book_test::{MOST_DEPTH, SCRATCH_SIZE};
use leskofar_reference::maker::sample;
use leskofar_reference::refusal::{CONTENTS, DEPTH, SCRATCH_SHORT, SESSION, TOO_DEEP_FOR_NARROW};
use leskofar_reference::turns::{narrow, widen};

/// Places in both images.
const NODE: usize = 4;
const GOAL: usize = 8;
const OWED: usize = 12;

#[test]
fn each_kind_is_taken_by_its_own_turn() {
    let sample = sample();
    let book = sample.maker.book();
    let [wide, narrow] = [wide(0, &[]), of_narrow(0, &[])];
    assert_eq!(widened(&book, &wide), Err(SESSION));
    assert_eq!(narrowed(&book, &narrow), Err(SESSION));
    // With the other's number, and with one of no kind.
    for kind in [0, 1, 3, 255] {
        let mut image = wide.clone();
        image[0] = kind;
        assert_eq!(narrowed(&book, &image), Err(SESSION));
    }
    for kind in [0, 2, 3, 255] {
        let mut image = narrow.clone();
        image[0] = kind;
        assert_eq!(widened(&book, &image), Err(SESSION));
    }
    let mut desk = Desk::new(&sample.maker);
    desk.image = narrow;
    assert_eq!(desk.move_to(0), Err(SESSION));
    assert_eq!(desk.ask(0, 0), Err(SESSION));
}

/// The bytes of every number of the head, and of levels: each of them counts.
#[test]
fn twenty_is_for_images_of_no_session() {
    let sample = sample();
    let book = sample.maker.book();
    let levels = [(CONSTANTS, 1)];
    let goal = sample.goal;
    for (turn, size, image) in [
        (
            narrowed as fn(&[u8], &[u8]) -> _,
            2,
            spelled(2, 1, goal, 1, &levels),
        ),
        (widened, 1, spelled(1, 1, goal, 1, &levels)),
    ] {
        assert!(turn(&book, &image).is_ok());
        for at in (0..LEVELS).chain([LEVELS, LEVELS + size * CONSTANTS, image.len() - 1]) {
            let mut changed = image.clone();
            changed[at] ^= 0x80;
            assert_eq!(turn(&book, &changed), Err(SESSION), "byte {at}");
        }
        for (at, byte) in [(OWED, 0), (OWED, 3), (NODE, 2), (NODE, 4)] {
            let mut changed = image.clone();
            changed[at] = byte;
            assert_eq!(turn(&book, &changed), Err(SESSION), "byte {at}");
        }
        let mut changed = image.clone();
        changed[GOAL] = sample.maker.terms.len() as u8;
        assert_eq!(turn(&book, &changed), Err(SESSION));
        let other = NARROW_SIZE + WIDE_SIZE - image.len();
        for length in [0, 1, LEVELS, other, image.len() - 1, image.len() + 1] {
            let mut changed = image.clone();
            changed.resize(length, 0);
            assert_eq!(turn(&book, &changed), Err(SESSION));
        }
    }
}

#[test]
fn twenty_is_for_a_buffer_of_another_length() {
    let (m, _) = chain(80, &[1]);
    let book = m.book();
    let levels = [(CONSTANTS, 1)];
    let lengths = [0, 1, NARROW_SIZE - 1, NARROW_SIZE, NARROW_SIZE + 1];
    for length in lengths
        .into_iter()
        .chain([WIDE_SIZE - 1, WIDE_SIZE, WIDE_SIZE + 1])
    {
        let into_wide = turned(widen, &book, &of_narrow(1, &levels), length);
        assert_eq!(into_wide.is_ok(), length == WIDE_SIZE);
        let into_narrow = turned(narrow, &book, &wide(1, &levels), length);
        assert_eq!(into_narrow.is_ok(), length == NARROW_SIZE);
        for answer in [into_wide, into_narrow] {
            assert!(answer.is_ok() || answer == Err(SESSION));
        }
        // Before 24.
        let deep = if length == NARROW_SIZE {
            TOO_DEEP_FOR_NARROW
        } else {
            SESSION
        };
        assert_eq!(turned(narrow, &book, &wide(80, &levels), length), Err(deep));
        assert_eq!(
            turned(widen, &book, &of_narrow(80, &levels), length),
            Err(SESSION)
        );
    }
}

#[test]
fn one_to_six_come_first() {
    let (mut m, _) = chain(MOST_DEPTH, &[]);
    let term = m.boolean(true);
    m.context(MOST_DEPTH as u32, term);
    let mut book = m.book();
    for (turn, length) in [(widen as Turn, WIDE_SIZE), (narrow, NARROW_SIZE)] {
        // No session, no buffer, and a node that is too deep.
        assert_eq!(turned(turn, &book, &[], 0), Err(DEPTH));
        assert_eq!(turned(turn, &book, &wide(80, &[]), length), Err(DEPTH));
    }
    book.push(0);
    for turn in [widen as Turn, narrow] {
        assert_eq!(turned(turn, &book, &[], 0), Err(CONTENTS));
        let mut scratch = buffer(SCRATCH_SIZE - 1);
        assert_eq!(turn(&book, &mut scratch, &[], &mut []), Err(SCRATCH_SHORT));
        assert_eq!(scratch, buffer(SCRATCH_SIZE - 1));
    }
}
