//! Turns of changed images of both kinds, and of images and buffers of every
//! length, against the reference.

use crate::calls::{Call, Given as CallGiven, OK};
use crate::damaged_images::{foreign, manners};
use crate::image_places::{fields, respelled, spelled, LEVELS_AT};
use crate::made_turns::{declaring_all, Chain};
use crate::scratch_bytes::LEAST;
use crate::session_images::sample_images;
use crate::tally::{Met, Tally};
use crate::turn_call::{Given, Turn, TurnsMet, TURNS};
use crate::turn_edges::images;
use leskofar_reference::book_test::MOST_DEPTH;
use leskofar_reference::image::{Kind, Owed, IMAGE_SIZE, NARROW_SIZE};
use leskofar_reference::maker::sample;
use leskofar_reference::random::Random;
use leskofar_reference::refusal::{SESSION, TOO_DEEP_FOR_NARROW};

const SEED: u64 = 0x7475_726E;
/// How much longer than it should be an image or a buffer is, at most.
const LONGER: usize = 3;
/// Depths of sessions whose images are damaged at random, and how often each.
const DEPTHS: [usize; 5] = [1, 64, 65, 256, MOST_DEPTH];
const DAMAGES: usize = 60;
/// What each byte of a head is changed by in those.
const HEAD_CHANGES: [u8; 4] = [1, 2, 0x80, 0xFF];

/// The sample's wide images, and the same as narrow ones.
fn both_kinds() -> Result<Vec<(Turn, Vec<u8>)>, String> {
    let sample = sample();
    let mut both = Vec::new();
    for wide in sample_images(&sample.maker, sample.goal)? {
        let narrow = respelled(Kind::Wide, &wide, Kind::Narrow);
        both.extend([(Turn::Widen, narrow), (Turn::Narrow, wide)]);
    }
    Ok(both)
}

fn byte_group(tally: &mut Tally) {
    tally.group("turns, every byte of both images changed", || {
        let mut met = TurnsMet::default();
        let book = &sample().maker.book();
        for (turn, image) in both_kinds()? {
            for (field, bytes) in fields(turn.received()) {
                for at in bytes {
                    let old = image[at];
                    let some = [0, 1, 2, old.wrapping_add(1), old.wrapping_sub(1), u8::MAX];
                    let all: Vec<u8> = (0..=u8::MAX).collect();
                    let is_head = at < LEVELS_AT;
                    for byte in if is_head { &all[..] } else { &some } {
                        let mut changed = image.clone();
                        changed[at] = *byte;
                        turn.compare_on(book, &changed, &mut met)
                            .map_err(|what| format!("{field}: {what}"))?;
                    }
                }
            }
        }
        met.only(&[0, SESSION], &[0, SESSION])
    });
}

/// All lengths up to some bytes more than the longer image has.
fn lengths() -> impl Iterator<Item = usize> {
    0..=IMAGE_SIZE + LONGER
}

fn length_groups(tally: &mut Tally) {
    tally.group("turns, images of every length", || {
        let mut met = TurnsMet::default();
        let book = &sample().maker.book();
        for (turn, mut image) in both_kinds()? {
            image.resize(IMAGE_SIZE + LONGER, 0);
            for length in lengths() {
                let turned = turn.compare_on(book, &image[..length], &mut met)?;
                if (turned.refusal() == 0) != (length == turn.received().image_size()) {
                    return Err(format!("{turned:?} of {length} bytes, {turn:?}"));
                }
            }
        }
        met.only(&[0, SESSION], &[0, SESSION])
    });
    tally.group("turns, buffers of every length", || {
        let mut met = TurnsMet::default();
        let book = &sample().maker.book();
        for (turn, image) in both_kinds()? {
            for room in lengths() {
                let turned = turn.compare(
                    &Given {
                        book,
                        image: &image,
                        scratch: &LEAST,
                        room,
                    },
                    &mut met,
                )?;
                if (turned.refusal() == 0) != (room == turn.written().image_size()) {
                    return Err(format!("{turned:?} into {room} bytes, {turn:?}"));
                }
            }
        }
        met.only(&[0, SESSION], &[0, SESSION])
    });
    // A buffer of another length comes before 24.
    tally.group("turns, buffers of a session that is too deep", || {
        let mut met = TurnsMet::default();
        let chain = declaring_all(MOST_DEPTH, &[1]);
        let book = &chain.maker.book();
        for turn in TURNS {
            let image = spelled(turn.received(), [65, 0, 0], &chain.levels(65));
            let right = turn.written().image_size();
            for room in [0, 1, NARROW_SIZE, IMAGE_SIZE, right - 1, right, right + 1] {
                let given = Given {
                    book,
                    image: &image,
                    scratch: &LEAST,
                    room,
                };
                let turned = turn.compare(&given, &mut met)?;
                let is_deep = turn == Turn::Narrow && room == right;
                let known = if is_deep {
                    TOO_DEEP_FOR_NARROW
                } else {
                    SESSION
                };
                if turned.refusal() != known {
                    return Err(format!("{turned:?} into {room} bytes, {turn:?}"));
                }
            }
        }
        met.only(&[SESSION], &[SESSION, TOO_DEEP_FOR_NARROW])
    });
}

/// The head's bytes changed one by one, and random damages, of one session in
/// both kinds; and a reply on each of them.
fn damage(
    random: &mut Random,
    chain: &Chain,
    wide: &[u8],
    met: &mut TurnsMet,
    seen: &mut Met<&'static str>,
) -> Result<(), String> {
    let book = &chain.maker.book();
    for turn in TURNS {
        let kind = turn.received();
        let own = respelled(Kind::Wide, wide, kind);
        let fresh = spelled(kind, [0; 3], &[]);
        let mut changed = Vec::new();
        for at in 0..LEVELS_AT {
            changed.extend(HEAD_CHANGES.map(|change| {
                let mut image = own.clone();
                image[at] ^= change;
                image
            }));
        }
        for _ in 0..DAMAGES {
            let (manner, image) = foreign(random, kind, &own, &fresh);
            seen.add(manner);
            changed.push(image);
        }
        for image in &changed {
            turn.compare_on(book, image, met)?;
            Call::reply(OK, b"sat").compare(&CallGiven {
                book,
                image,
                scratch: &LEAST,
                text: IMAGE_SIZE,
                reason: 0,
            })?;
        }
    }
    Ok(())
}

fn damage_group(tally: &mut Tally) {
    tally.group("turns, deep sessions damaged", || {
        let mut met = TurnsMet::default();
        let mut seen = Met::default();
        let mut random = Random::new(SEED);
        let chain = declaring_all(MOST_DEPTH, &[1, 2, 64, 65, 255, 256, 257]);
        for depth in DEPTHS {
            for (owed, wide) in images(&chain, depth)? {
                if owed != Owed::Model {
                    damage(&mut random, &chain, &wide, &mut met, &mut seen)?;
                }
            }
        }
        seen.all_of(&manners())?;
        met.all_of(&[0, SESSION], &[0, SESSION, TOO_DEEP_FOR_NARROW])
    });
}

pub fn run(tally: &mut Tally) {
    byte_group(tally);
    length_groups(tally);
    damage_group(tally);
}
