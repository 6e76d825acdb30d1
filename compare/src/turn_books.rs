//! Turns on books that are refused, with scratches of every length, against the
//! reference: refusals 1 to 6 before 20 and 24.

use crate::image_places::{respelled, spelled};
use crate::made_books::{chain, each_number_changed, faulty_books, full, too_deep_at};
use crate::scratch_bytes::{LEAST, LENGTHS};
use crate::tally::Tally;
use crate::turn_call::{Given, Turn, Turned, TurnsMet, TURNS};
use leskofar_reference::book::Section;
use leskofar_reference::book_test::MOST_DEPTH;
use leskofar_reference::image::{Kind, IMAGE_SIZE, NARROW_SIZE};
use leskofar_reference::maker::{sample, Maker};
use leskofar_reference::random::Random;
use leskofar_reference::refusal::{CONTENTS, DEPTH, SCRATCH_SHORT, SESSION, TOO_DEEP_FOR_NARROW};

const SEED: u64 = 0x7475_726E;
/// Nodes of the sessions on books that are too deep.
const NODES: [u32; 5] = [0, 1, 64, 65, 400];
const BOOK_REFUSALS: [u32; 7] = [1, 2, 3, 4, 5, 6, 28];

/// Sessions of a turn's kind on a chain: fresh, and at a node that a narrow
/// session may not have. And none: at a node that is not there, of the other
/// kind, cut, and empty.
fn images(turn: Turn) -> Vec<Vec<u8>> {
    let at = |node| spelled(turn.received(), [node, 0, 0], &[]);
    let of_other_kind = spelled(turn.written(), [0; 3], &[]);
    let cut = at(0)[1..].to_vec();
    vec![at(0), at(65), at(u32::MAX), of_other_kind, cut, vec![]]
}

/// Both turns of these images into buffers of the right length and of others.
fn compare_all(book: &[u8], scratch: &[u8], met: &mut TurnsMet) -> Result<(), String> {
    for turn in TURNS {
        let right = turn.written().image_size();
        for image in images(turn) {
            for room in [right, 0, right + 1] {
                let given = Given {
                    book,
                    image: &image,
                    scratch,
                    room,
                };
                turn.compare(&given, met)?;
            }
        }
    }
    Ok(())
}

fn order_groups(tally: &mut Tally) {
    tally.group("turns, every refusal with every later one", || {
        let mut met = TurnsMet::default();
        // A chain without faults has the nodes that some sessions name.
        let deep = chain(MOST_DEPTH).book();
        for book in faulty_books().iter().chain([&deep]) {
            for scratch in [&[], &LEAST[1..], &LEAST] {
                compare_all(book, scratch, &mut met)?;
            }
        }
        let widen = [&BOOK_REFUSALS[..], &[0, SESSION]].concat();
        let narrow = [&widen[..], &[TOO_DEEP_FOR_NARROW]].concat();
        met.only(&widen, &narrow)
    });
    tally.group("turns, every scratch", || {
        let mut met = TurnsMet::default();
        let mut random = Random::new(SEED);
        let deep = chain(MOST_DEPTH).book();
        // The least book has the root alone.
        let least = Maker::default().book();
        for book in [&least, &sample().maker.book(), &deep] {
            for length in LENGTHS {
                compare_all(book, &random.bytes(length), &mut met)?;
            }
        }
        met.only(
            &[0, SCRATCH_SHORT, SESSION],
            &[0, SCRATCH_SHORT, SESSION, TOO_DEEP_FOR_NARROW],
        )
    });
    tally.group("turns, every prefix of a book and some bytes more", || {
        let mut met = TurnsMet::default();
        let mut book = sample().maker.book();
        let whole = book.len();
        book.extend([0; 2]);
        for length in 0..=book.len() {
            for turn in TURNS {
                let image = spelled(turn.received(), [0; 3], &[]);
                let turned = turn.compare_on(&book[..length], &image, &mut met)?;
                if (turned.refusal() == 0) != (length == whole) {
                    return Err(format!("{turned:?} of {length} bytes of a book"));
                }
            }
        }
        met.only(&[0, CONTENTS], &[0, CONTENTS])
    });
    tally.group("turns, every number of a book at every border", || {
        let mut met = TurnsMet::default();
        let mut first = Ok(());
        let images = TURNS.map(|turn| (turn, spelled(turn.received(), [0; 3], &[])));
        each_number_changed(&full(), &mut |book| {
            for (turn, image) in &images {
                if first.is_ok() {
                    first = turn.compare_on(book, image, &mut met).map(|_| ());
                }
            }
        });
        first?;
        met.only(&[0, 2, 4, 5, 28], &[0, 2, 4, 5, 28])
    });
}

fn depth_groups(tally: &mut Tally) {
    tally.group("turns, a node 401 deep at each place", || {
        let mut met = TurnsMet::default();
        for node in MOST_DEPTH + 1..=Section::Contexts.most() {
            let book = &too_deep_at(node).book();
            for turn in TURNS {
                for at in NODES {
                    let image = spelled(turn.received(), [at, 0, 0], &[]);
                    turn.expect(book, &image, Turned::Refused(DEPTH), &mut met)?;
                }
            }
        }
        met.only(&[DEPTH], &[DEPTH])
    });
    tally.group("turns, chains around the deepest", || {
        let mut met = TurnsMet::default();
        for depth in [399, 400, 401, 402, 511, 512] {
            let book = &chain(depth).book();
            for at in NODES {
                let wide = spelled(Kind::Wide, [at, 0, 0], &[]);
                let narrow = respelled(Kind::Wide, &wide, Kind::Narrow);
                for (turn, image) in TURNS.into_iter().zip([narrow, wide]) {
                    let turned = turn.compare_on(book, &image, &mut met)?;
                    if (turned.refusal() == DEPTH) != (depth > MOST_DEPTH) {
                        return Err(format!("{turned:?} of {turn:?} on a chain {depth} deep"));
                    }
                }
            }
        }
        met.only(
            &[0, DEPTH, SESSION],
            &[0, DEPTH, SESSION, TOO_DEEP_FOR_NARROW],
        )
    });
    // Lengths of images that would do for the other turn.
    tally.group("turns, images and buffers in each other's place", || {
        let mut met = TurnsMet::default();
        let book = &sample().maker.book();
        for turn in TURNS {
            for kind in [Kind::Narrow, Kind::Wide] {
                for room in [NARROW_SIZE, IMAGE_SIZE] {
                    let image = &spelled(kind, [0; 3], &[]);
                    let given = Given {
                        book,
                        image,
                        scratch: &LEAST,
                        room,
                    };
                    let turned = turn.compare(&given, &mut met)?;
                    let fits = kind == turn.received() && room == turn.written().image_size();
                    if (turned.refusal() == 0) != fits {
                        return Err(format!("{turned:?} of {kind:?} into {room}, {turn:?}"));
                    }
                }
            }
        }
        met.only(&[0, SESSION], &[0, SESSION])
    });
}

pub fn run(tally: &mut Tally) {
    order_groups(tally);
    depth_groups(tally);
}
