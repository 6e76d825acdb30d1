//! Images that the library wrote before there were two kinds, byte for byte:
//! they are narrow ones, and a session goes on from them.

use crate::calls::{Call, Given, OK};
use crate::made_turns::declaring;
use crate::scratch_bytes::LEAST;
use crate::sessions::END;
use crate::tally::{Met, Tally};
use crate::turn_call::{Turn, Turned, TurnsMet};
use leskofar_reference::maker::{sample, Maker};
use leskofar_reference::refusal::SESSION;
use leskofar_reference::session::UNSAT;
use leskofar_reference::turns::NARROW_DEPTH;

const LANDED_SIZE: usize = 1_616;
const WIDE_SIZE: usize = 3_216;
const HEAD_SIZE: usize = 16;
const WIDE_KIND: u8 = 2;
/// The first byte of the constants' levels.
const FIRST_CONSTANT: usize = 80;
/// More than any text or reason here has.
const ROOM: usize = 1 << 12;

/// An image as it was written, by its bytes that are not 0 and their places;
/// the call that goes on from it, and the call's text.
struct Landed {
    name: &'static str,
    bytes: Vec<(usize, u8)>,
    next: Call,
    text: String,
}

/// On the sample.
fn of_the_sample() -> Vec<Landed> {
    let go_on = |name, bytes: &[(usize, u8)], next, text: &str| Landed {
        name,
        bytes: bytes.to_vec(),
        next,
        text: text.into(),
    };
    vec![
        go_on(
            "fresh",
            &[(0, 1)],
            Call::Move { node: 1 },
            "(push 1)\n(declare-fun x () Int)\n(assert (< 0 x))\n",
        ),
        go_on(
            "at node 2",
            &[(0, 1), (4, 2), (80, 1), (81, 2), (336, 2), (464, 2)],
            Call::Move { node: 3 },
            "(pop 1)\n(push 1)\n(assert (< x 9))\n",
        ),
        go_on(
            "a reply owed",
            &[(0, 1), (4, 3), (8, 18), (12, 1), (80, 1)],
            Call::reply(OK, UNSAT),
            END,
        ),
        go_on(
            "a model owed",
            &[(0, 1), (4, 3), (8, 18), (12, 2), (80, 1)],
            Call::model(b"sat", None),
            END,
        ),
    ]
}

/// On a chain as deep as there could be one, each node with a constant: the
/// levels 1 to 64 from the constants' first place on, and a reply owed.
fn of_the_deepest() -> Landed {
    let levels =
        (1..=NARROW_DEPTH as u8).map(|level| (FIRST_CONSTANT - 1 + usize::from(level), level));
    Landed {
        name: "64 deep, a reply owed",
        bytes: [(0, 1), (4, 64), (8, 64), (12, 1)]
            .into_iter()
            .chain(levels)
            .collect(),
        next: Call::reply(OK, UNSAT),
        text: END.into(),
    }
}

/// The same session in two bytes for each level.
fn widened(bytes: &[(usize, u8)]) -> Vec<u8> {
    let mut image = vec![0; WIDE_SIZE];
    for (at, byte) in bytes {
        let behind_head = at.saturating_sub(HEAD_SIZE);
        image[at + behind_head] = *byte;
    }
    image[0] = WIDE_KIND;
    image
}

fn compare(m: &Maker, landed: &Landed, met: &mut TurnsMet) -> Result<(), String> {
    let book = &m.book();
    let mut narrow = vec![0; LANDED_SIZE];
    for (at, byte) in &landed.bytes {
        narrow[*at] = *byte;
    }
    let wide = widened(&landed.bytes);
    Turn::Widen.expect(book, &narrow, Turned::Into(wide.clone()), met)?;
    Turn::Narrow.expect(book, &wide, Turned::Into(narrow.clone()), met)?;
    // The calls take the wide one alone.
    for (image, refusal) in [(&narrow, SESSION), (&wide, 0)] {
        let left = landed.next.compare(&Given {
            book,
            image,
            scratch: &LEAST,
            text: ROOM,
            reason: ROOM,
        })?;
        if left.answer.refusal != refusal {
            return Err(format!("{:?} of {:?}", left.answer, landed.next));
        }
        if left.accepted() && left.text() != landed.text.as_bytes() {
            return Err(format!("another text of {:?}", landed.next));
        }
    }
    Ok(())
}

pub fn run(tally: &mut Tally) {
    tally.group("turns, images from before the wide kind", || {
        let mut met = TurnsMet::default();
        let mut names = Met::default();
        let sample = sample().maker;
        let of_the_sample = of_the_sample();
        let deepest = declaring(NARROW_DEPTH, 1..=NARROW_DEPTH).maker;
        let cases = of_the_sample.iter().map(|landed| (&sample, landed));
        for (m, landed) in cases.chain([(&deepest, &of_the_deepest())]) {
            compare(m, landed, &mut met).map_err(|what| format!("{}: {what}", landed.name))?;
            names.add(landed.name);
        }
        met.only(&[0], &[0])?;
        Ok(names.said())
    });
}
