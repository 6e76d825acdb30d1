//! Turns whose outcome is known beforehand: at the borders of the depth, of a
//! level's bytes and of a question.

use crate::calls::{Call, Given, OK};
use crate::image_places::{level, put_level, spelled};
use crate::lists::on_book;
use crate::made_turns::{declaring, declaring_all, Chain};
use crate::scratch_bytes::LEAST;
use crate::seen::Seen;
use crate::tally::{Met, Tally};
use crate::turn_call::{expect_both, Turn, Turned, TurnsMet};
use leskofar_reference::book::Section;
use leskofar_reference::book_test::MOST_DEPTH;
use leskofar_reference::image::{Kind, Owed};
use leskofar_reference::refusal::{SESSION, TOO_DEEP_FOR_NARROW};
use leskofar_reference::turns::NARROW_DEPTH;

/// Depths at the borders: of a narrow session, of a byte's high bit, of a byte,
/// of what a byte would cut to 64, and of a book.
const DEPTHS: [usize; 20] = [
    0, 1, 63, 64, 65, 66, 127, 128, 129, 254, 255, 256, 257, 319, 320, 321, 322, 398, 399, 400,
];
/// Levels at those borders.
const LEVELS: [usize; 8] = [1, 63, 64, 65, 255, 256, 257, 400];
/// A depth where a session has no place in the narrow kind, whatever it stores.
const DEEP: usize = 80;
/// More than any text or reason here has.
const ROOM: usize = 1 << 16;

/// The images at a node of a chain, as the library leaves them: nothing owed, a
/// reply, a model.
pub fn images(chain: &Chain, node: usize) -> Result<Vec<(Owed, Vec<u8>)>, String> {
    let (node, goal) = (node as u32, chain.goal);
    let calls = [
        (Call::Move { node }, Owed::Nothing),
        (Call::Ask { node, goal }, Owed::Reply),
        (Call::reply(OK, b"sat"), Owed::Model),
    ];
    on_book(&chain.maker, |list| {
        let image_after = |(call, owed)| {
            list.step(&call, ROOM, ROOM, &mut Seen::default())?;
            Ok((owed, list.image().to_vec()))
        };
        calls.into_iter().map(image_after).collect()
    })
}

/// The image at a node of a chain, spelled.
fn image_at(chain: &Chain, node: usize, owed: Owed, kind: Kind) -> Vec<u8> {
    let goal = if owed == Owed::Nothing { 0 } else { chain.goal };
    let head = [node as u32, goal, owed as u32];
    spelled(kind, head, &chain.levels(node))
}

/// Both turns at a node of a chain. The calls leave the image that is spelled.
fn compare_at(chain: &Chain, depth: usize, met: &mut TurnsMet) -> Result<(), String> {
    let book = &chain.maker.book();
    for (owed, image) in images(chain, depth)? {
        let [narrow, wide] =
            [Kind::Narrow, Kind::Wide].map(|kind| image_at(chain, depth, owed, kind));
        if image != wide {
            return Err(format!("another image {depth} deep: {image:?}"));
        }
        expect_both(book, depth, &narrow, &wide, met)?;
    }
    Ok(())
}

fn depth_groups(tally: &mut Tally) {
    tally.group("turns, at every border of the depth", || {
        let mut met = TurnsMet::default();
        for depth in DEPTHS {
            // Of the constants one is the goal's.
            let first = (depth + 2).saturating_sub(Section::Constants.most());
            for chain in [
                declaring(depth, []),
                declaring(depth, [1]),
                declaring(depth, [depth]),
                declaring(depth, LEVELS),
                declaring(depth, first..=depth),
                declaring_all(depth, &[depth / 2, depth]),
            ] {
                compare_at(&chain, depth, &mut met)?;
            }
        }
        met.all_of(&[0, SESSION], &[0, TOO_DEEP_FOR_NARROW])
    });
    // Neither the other nodes of a book play a part, nor a node's number.
    tally.group("turns, every node of the deepest book", || {
        let mut met = TurnsMet::default();
        let mut chain = declaring(MOST_DEPTH, LEVELS);
        for above in 0..Section::Contexts.most() - MOST_DEPTH {
            let term = chain.maker.boolean(true);
            chain.maker.context(above as u32, term);
        }
        let book = &chain.maker.book();
        for (record, [parent, ..]) in chain.maker.contexts.iter().enumerate() {
            let [node, above] = [record + 1, *parent as usize];
            // Those beside the chain declare nothing.
            let levels = chain.levels(if node <= MOST_DEPTH { node } else { above });
            let [narrow, wide] =
                [Kind::Narrow, Kind::Wide].map(|kind| spelled(kind, [node as u32, 0, 0], &levels));
            expect_both(book, above + 1, &narrow, &wide, &mut met)?;
        }
        met.all_of(&[0, SESSION], &[0, TOO_DEEP_FOR_NARROW])
    });
    tally.group("turns, an open question 63, 64 and 65 deep", || {
        let mut met = TurnsMet::default();
        let chain = declaring(MOST_DEPTH, LEVELS);
        for depth in NARROW_DEPTH - 1..=NARROW_DEPTH + 1 {
            compare_at(&chain, depth, &mut met)?;
        }
        met.only(&[0, SESSION], &[0, TOO_DEEP_FOR_NARROW])
    });
    tally.group("turns, 80 deep with nothing declared below level 1", || {
        let mut met = TurnsMet::default();
        let chain = declaring(DEEP, [1]);
        let book = &chain.maker.book();
        for owed in [Owed::Nothing, Owed::Reply, Owed::Model] {
            let [narrow, wide] =
                [Kind::Narrow, Kind::Wide].map(|kind| image_at(&chain, DEEP, owed, kind));
            Turn::Narrow.expect(book, &wide, Turned::Refused(TOO_DEEP_FOR_NARROW), &mut met)?;
            Turn::Widen.expect(book, &narrow, Turned::Refused(SESSION), &mut met)?;
        }
        met.only(&[SESSION], &[TOO_DEEP_FOR_NARROW])
    });
}

/// Calls on an image, and the turn back, which are all refused 20, or none.
fn compare_calls(
    chain: &Chain,
    image: &[u8],
    is_session: bool,
    met: &mut Met<&'static str>,
) -> Result<(), String> {
    let book = &chain.maker.book();
    let turned = Turn::Narrow.compare_on(book, image, &mut TurnsMet::default())?;
    let mut refusals = vec![turned.refusal()];
    let goal = chain.goal;
    for call in [
        Call::Move { node: 0 },
        Call::Ask { node: 1, goal },
        Call::reply(OK, b"sat"),
        Call::model(b"sat", None),
    ] {
        let given = Given {
            book,
            image,
            scratch: &LEAST,
            text: ROOM,
            reason: ROOM,
        };
        refusals.push(call.compare(&given)?.answer.refusal);
    }
    if refusals
        .iter()
        .any(|refusal| (*refusal == SESSION) == is_session)
    {
        return Err(format!("{refusals:?} of {image:?}"));
    }
    met.add(if is_session {
        "sessions"
    } else {
        "no sessions"
    });
    Ok(())
}

fn level_groups(tally: &mut Tally) {
    tally.group("turns, levels of 255, 256, 257 and 400", || {
        let mut met = Met::default();
        let chain = declaring_all(MOST_DEPTH, &[255, 256, 257, MOST_DEPTH]);
        let image = image_at(&chain, MOST_DEPTH, Owed::Nothing, Kind::Wide);
        compare_calls(&chain, &image, true, &mut met)?;
        for (place, old) in chain.levels(MOST_DEPTH) {
            for other in [
                0,
                1,
                old - 1,
                old + 1,
                old ^ 0x100,
                old & 0xFF,
                old.swap_bytes(),
            ] {
                let mut changed = image.clone();
                put_level(Kind::Wide, &mut changed, place, other);
                compare_calls(&chain, &changed, other == old, &mut met)?;
            }
        }
        // Where nothing is declared, a high byte alone counts too.
        for high in [0x100, 0x200, 0xFF00] {
            let mut changed = image.clone();
            put_level(Kind::Wide, &mut changed, chain.goal_place, high);
            compare_calls(&chain, &changed, false, &mut met)?;
        }
        met.only(&["sessions", "no sessions"])
    });
    tally.group("turns, a goal at level 401", || {
        let mut met = Met::default();
        let chain = declaring(MOST_DEPTH, [MOST_DEPTH]);
        for (owed, image) in images(&chain, MOST_DEPTH)? {
            if image != image_at(&chain, MOST_DEPTH, owed, Kind::Wide) {
                return Err(format!("another image: {image:?}"));
            }
            compare_calls(&chain, &image, true, &mut met)?;
            for stored in [MOST_DEPTH as u16, MOST_DEPTH as u16 + 1] {
                let mut changed = image.clone();
                if level(Kind::Wide, &changed, chain.goal_place) != 0 {
                    return Err("what the goal declared is stored".into());
                }
                put_level(Kind::Wide, &mut changed, chain.goal_place, stored);
                compare_calls(&chain, &changed, false, &mut met)?;
            }
        }
        met.only(&["sessions", "no sessions"])
    });
}

pub fn run(tally: &mut Tally) {
    depth_groups(tally);
    level_groups(tally);
}
