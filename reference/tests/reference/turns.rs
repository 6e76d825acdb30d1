//! The two kinds of image, and the turns between them.

use crate::desk::{buffer, Desk};
use leskofar_reference::book::INT;
use leskofar_reference::book_test::{MOST_DEPTH, SCRATCH_SIZE};
use leskofar_reference::fresh_image;
use leskofar_reference::maker::{sample, Maker};
use leskofar_reference::refusal::{SESSION, SOMETHING_OWED, TOO_DEEP_FOR_NARROW};
use leskofar_reference::turns::{narrow, widen};

/// The images' sizes and places, spelled out.
pub const WIDE_SIZE: usize = 3_216;
pub const NARROW_SIZE: usize = 1_616;
pub const LEVELS: usize = 16;
pub const CONSTANTS: usize = 64;
const FUNCTIONS: usize = CONSTANTS + 256;
const AXIOMS: usize = FUNCTIONS + 128;
const PLACES: usize = 1_600;

pub type Turn = fn(&[u8], &mut [u8], &[u8], &mut [u8]) -> Result<(), u32>;

/// A turn into a buffer of a length; held to what is said of its buffers.
pub fn turned(turn: Turn, book: &[u8], from: &[u8], length: usize) -> Result<Vec<u8>, u32> {
    let mut scratch = buffer(SCRATCH_SIZE + 1);
    let mut to = buffer(length);
    let answer = turn(book, &mut scratch, from, &mut to);
    assert!(scratch.iter().all(|byte| *byte == 0));
    if answer.is_err() {
        assert_eq!(to, buffer(length));
    }
    answer.map(|()| to)
}

pub fn widened(book: &[u8], from: &[u8]) -> Result<Vec<u8>, u32> {
    turned(widen, book, from, WIDE_SIZE)
}

pub fn narrowed(book: &[u8], from: &[u8]) -> Result<Vec<u8>, u32> {
    turned(narrow, book, from, NARROW_SIZE)
}

/// An image spelled out: its kind by the bytes of a level, its head, and the
/// levels that are not 0.
pub fn spelled(
    level_size: usize,
    node: u32,
    goal: u32,
    owed: u32,
    levels: &[(usize, u16)],
) -> Vec<u8> {
    let head = [level_size as u32, node, goal, owed];
    let mut image: Vec<u8> = head.iter().flat_map(|n| n.to_le_bytes()).collect();
    image.resize(LEVELS + PLACES * level_size, 0);
    for (place, level) in levels {
        let at = LEVELS + place * level_size;
        image[at..at + level_size].copy_from_slice(&level.to_le_bytes()[..level_size]);
    }
    image
}

pub fn wide(node: u32, levels: &[(usize, u16)]) -> Vec<u8> {
    spelled(2, node, 0, 0, levels)
}

pub fn of_narrow(node: u32, levels: &[(usize, u16)]) -> Vec<u8> {
    spelled(1, node, 0, 0, levels)
}

/// A chain of nodes; only those at the given depths declare a constant, each
/// its own. The last term is a goal with another.
pub fn chain(depth: usize, declaring: &[usize]) -> (Maker, u32) {
    let mut m = Maker::default();
    for node in 0..depth {
        let term = if declaring.contains(&(node + 1)) {
            let v = m.constant("v", INT);
            m.id(v)
        } else {
            m.boolean(true)
        };
        m.context(node as u32, term);
    }
    let v = m.constant("goal", INT);
    let goal = m.id(v);
    (m, goal)
}

#[test]
fn the_images_of_both_kinds() {
    let sample = sample();
    let book = sample.maker.book();
    let mut desk = Desk::new(&sample.maker);
    desk.move_to(2).expect("accepted");
    let levels = [
        (CONSTANTS, 1),
        (CONSTANTS + 1, 2),
        (FUNCTIONS, 2),
        (AXIOMS, 2),
    ];
    assert_eq!(desk.image, wide(2, &levels));
    assert_eq!(desk.image.len(), WIDE_SIZE);
    let turned = narrowed(&book, &desk.image).expect("accepted");
    assert_eq!(turned, of_narrow(2, &levels));
    assert_eq!(turned.len(), NARROW_SIZE);
    assert_eq!(widened(&book, &turned).as_ref(), Ok(&desk.image));
    // A fresh one.
    let fresh = narrowed(&book, &fresh_image()).expect("accepted");
    assert_eq!(fresh, of_narrow(0, &[]));
    assert_eq!(widened(&book, &fresh).expect("accepted"), fresh_image());
}

#[test]
fn a_turn_goes_by_the_depth_of_the_node() {
    for depth in [1, 63, 64, 65, 66, 255, 256, 257, 399, 400] {
        // Whatever the node's path declares.
        for declaring in [&[][..], &[1], &[depth]] {
            let (m, _) = chain(depth, declaring);
            let (book, node) = (m.book(), depth as u32);
            let levels: Vec<(usize, u16)> = declaring
                .iter()
                .map(|depth| (CONSTANTS, *depth as u16))
                .collect();
            let mut desk = Desk::new(&m);
            desk.move_to(node).expect("accepted");
            assert_eq!(desk.image, wide(node, &levels));
            let back = narrowed(&book, &desk.image);
            let spelled = of_narrow(node, &levels);
            if depth <= 64 {
                assert_eq!(back.as_ref(), Ok(&spelled));
                assert_eq!(widened(&book, &spelled), Ok(desk.image));
            } else {
                assert_eq!(back, Err(TOO_DEEP_FOR_NARROW));
                assert_eq!(widened(&book, &spelled), Err(SESSION));
            }
        }
    }
}

/// A node on a book that is as deep as it may be, and one whose number is far
/// larger than its depth.
#[test]
fn narrow_sessions_on_deep_books() {
    let (mut m, _) = chain(MOST_DEPTH, &[1, 64, 65]);
    let term = m.boolean(true);
    let aside = m.context(63, term);
    let book = m.book();
    let at_64 = [(CONSTANTS, 1), (CONSTANTS + 1, 64)];
    assert_eq!(widened(&book, &of_narrow(64, &at_64)), Ok(wide(64, &at_64)));
    let at_65 = [(CONSTANTS, 1), (CONSTANTS + 1, 64), (CONSTANTS + 2, 65)];
    assert_eq!(widened(&book, &of_narrow(65, &at_65)), Err(SESSION));
    assert_eq!(narrowed(&book, &wide(65, &at_65)), Err(TOO_DEEP_FOR_NARROW));
    assert_eq!(
        narrowed(&book, &wide(aside, &at_64[..1])),
        Ok(of_narrow(aside, &at_64[..1]))
    );
}

#[test]
fn an_open_question_turns() {
    for (depth, back) in [(63, Ok(())), (64, Ok(())), (65, Err(TOO_DEEP_FOR_NARROW))] {
        let (m, goal) = chain(depth, &[depth]);
        let (book, node) = (m.book(), depth as u32);
        let levels = [(CONSTANTS, depth as u16)];
        let mut desk = Desk::new(&m);
        for owed in [1, 2] {
            if owed == 1 {
                desk.ask(node, goal).expect("accepted");
            } else {
                desk.reply(false, b"sat").expect("accepted");
            }
            assert_eq!(desk.image, spelled(2, node, goal, owed, &levels));
            let narrow = spelled(1, node, goal, owed, &levels);
            assert_eq!(narrowed(&book, &desk.image), back.map(|()| narrow.clone()));
            let wide = back.map(|()| desk.image.clone()).map_err(|_| SESSION);
            assert_eq!(widened(&book, &narrow), wide);
        }
        assert_eq!(desk.move_to(0), Err(SOMETHING_OWED));
    }
}

/// A level of 256 has the low byte 0, one of 257 the low byte 1.
#[test]
fn levels_of_two_bytes() {
    let (m, _) = chain(MOST_DEPTH, &[255, 256, 257, 400]);
    let mut desk = Desk::new(&m);
    desk.move_to(400).expect("accepted");
    let at = LEVELS + 2 * CONSTANTS;
    assert_eq!(desk.image[at..at + 8], [255, 0, 0, 1, 1, 1, 144, 1]);
    let good = desk.image.clone();
    for (byte, other) in [(1, 1), (2, 1), (3, 0), (4, 0), (5, 0), (6, 1), (7, 0)] {
        desk.image = good.clone();
        desk.image[at + byte] = other;
        assert_eq!(desk.move_to(0), Err(SESSION));
    }
    desk.image = good;
    // What is left of 255 and 256 after a move up.
    desk.move_to(255).expect("accepted");
    assert_eq!(desk.image, wide(255, &[(CONSTANTS, 255)]));
    desk.move_to(256).expect("accepted");
    assert_eq!(
        desk.image,
        wide(256, &[(CONSTANTS, 255), (CONSTANTS + 1, 256)])
    );
}

/// An image that calls have left at a node of a depth: it turns back exactly if
/// that is at most 64, into the low bytes of its levels, and these turn into it
/// again.
pub fn assert_turns(book: &[u8], image: &[u8], depth: usize) {
    let (head, levels) = image.split_at(LEVELS);
    let low_bytes = levels.iter().step_by(2).copied();
    let mut narrow: Vec<u8> = head.iter().copied().chain(low_bytes).collect();
    narrow[0] = 1;
    if depth <= 64 {
        assert_eq!(narrowed(book, image).as_ref(), Ok(&narrow));
        assert_eq!(widened(book, &narrow).as_deref(), Ok(image));
    } else {
        assert_eq!(narrowed(book, image), Err(TOO_DEEP_FOR_NARROW));
        assert_eq!(widened(book, &narrow), Err(SESSION));
    }
}
