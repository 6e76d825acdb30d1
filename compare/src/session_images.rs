//! Session calls on changed images, against the reference.

use crate::calls::{Call, Given, OK};
use crate::image_places::fields;
use crate::lists::on_book;
use crate::scratch_bytes::LEAST;
use crate::seen::Seen;
use crate::tally::{Met, Tally};
use leskofar_reference::image::{Kind, IMAGE_SIZE};
use leskofar_reference::maker::{sample, Maker};

/// More than the sample's texts and reasons have.
const ROOM: usize = 1 << 10;
/// How much longer than it should be an image is, at most.
const LONGER: usize = 3;

/// Images of the sample's session that owe nothing, a reply and a model.
pub fn sample_images(m: &Maker, goal: u32) -> Result<Vec<Vec<u8>>, String> {
    let mut images = Vec::new();
    on_book(m, |list| {
        for call in [
            Call::Move { node: 2 },
            Call::Ask { node: 3, goal },
            Call::reply(OK, b"sat"),
        ] {
            list.step(&call, ROOM, ROOM, &mut Seen::default())?;
            images.push(list.image().to_vec());
        }
        Ok(())
    })?;
    Ok(images)
}

pub fn run(tally: &mut Tally) {
    let sample = sample();
    let book = sample.maker.book();
    let calls = [
        Call::Move { node: 1 },
        Call::Ask {
            node: 2,
            goal: sample.goal,
        },
        Call::reply(OK, b"sat"),
        Call::model(b"sat", Some(b"model")),
    ];
    let compare_all = |image: &[u8], met: &mut Met| {
        calls.iter().try_for_each(|call| {
            let left = call.compare(&Given {
                book: &book,
                image,
                scratch: &LEAST,
                text: ROOM,
                reason: ROOM,
            })?;
            met.add(left.answer.refusal);
            Ok::<(), String>(())
        })
    };
    tally.group("session, every byte of an image changed", || {
        let mut met = Met::default();
        for image in sample_images(&sample.maker, sample.goal)? {
            for (field, bytes) in fields(Kind::Wide) {
                for at in bytes {
                    let old = image[at];
                    for byte in [0, 1, 2, old.wrapping_add(1), old.wrapping_sub(1), u8::MAX] {
                        let mut changed = image.clone();
                        changed[at] = byte;
                        compare_all(&changed, &mut met)
                            .map_err(|what| format!("{field}: {what}"))?;
                    }
                }
            }
        }
        met.all_of(&[0, 20, 21, 22, 23])
    });
    tally.group("session, images of every length", || {
        let mut met = Met::default();
        for mut image in sample_images(&sample.maker, sample.goal)? {
            image.resize(IMAGE_SIZE + LONGER, 0);
            for length in 0..=image.len() {
                compare_all(&image[..length], &mut met)?;
            }
        }
        met.all_of(&[0, 20, 21, 22, 23])
    });
}
