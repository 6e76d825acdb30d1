//! Images of no session, of both kinds: damaged ones, of wrong lengths, of the
//! other kind, and from other books. One of them may pass all the same, where
//! it spells a session.

use crate::image_places::{
    level, put_level, respelled, spelled, HEAD, LEVELS_AT, PLACES, SECTIONS,
};
use leskofar_reference::book::{number_at, NUMBER_SIZE};
use leskofar_reference::book_test::MOST_DEPTH;
use leskofar_reference::image::{Kind, IMAGE_SIZE, NARROW_SIZE};
use leskofar_reference::random::Random;
use leskofar_reference::turns::NARROW_DEPTH;

const DEEPEST: u16 = MOST_DEPTH as u16;
const NARROW: u16 = NARROW_DEPTH as u16;
/// Levels at the borders.
const LEVELS: [u16; 13] = [
    0,
    1,
    2,
    NARROW,
    NARROW + 1,
    0xFF,
    0x100,
    0x101,
    DEEPEST - 1,
    DEEPEST,
    DEEPEST + 1,
    1 << 15,
    u16::MAX,
];
const NUMBERS: [u32; 7] = [0, 1, 2, 3, 4, 1 << 31, u32::MAX];
const LENGTHS: [usize; 10] = [
    0,
    1,
    LEVELS_AT - 1,
    LEVELS_AT,
    NARROW_SIZE - 1,
    NARROW_SIZE,
    NARROW_SIZE + 1,
    IMAGE_SIZE - 1,
    IMAGE_SIZE + 1,
    2 * IMAGE_SIZE,
];

type Damage = fn(&mut Random, Kind, &mut Vec<u8>);
const DAMAGES: [(&str, Damage); 6] = [
    ("a number", change_number),
    ("a level", change_level),
    ("a declared level", change_declared),
    ("a byte", change_byte),
    ("the length", change_length),
    ("all bytes", |random, kind, image| {
        *image = random.bytes(kind.image_size());
    }),
];
const ANOTHER_BOOK: &str = "another book's";
const FRESH: &str = "fresh";
const OF_OTHER_KIND: &str = "of the other kind";

/// How an image can be foreign.
pub fn manners() -> Vec<&'static str> {
    let damages = DAMAGES.iter().map(|(name, _)| *name);
    let others = [ANOTHER_BOOK, FRESH, OF_OTHER_KIND];
    damages.chain(others).collect()
}

/// An image that is not the one of these calls, and how it is foreign. `own`
/// is of the kind, and so is `other`, a session on another book.
pub fn foreign(
    random: &mut Random,
    kind: Kind,
    own: &[u8],
    other: &[u8],
) -> (&'static str, Vec<u8>) {
    match random.below(DAMAGES.len() + 3) {
        0 => (ANOTHER_BOOK, other.to_vec()),
        1 => (FRESH, spelled(kind, [0; 3], &[])),
        2 => {
            let other_kind = match kind {
                Kind::Narrow => Kind::Wide,
                Kind::Wide => Kind::Narrow,
            };
            (OF_OTHER_KIND, respelled(kind, own, other_kind))
        }
        _ => {
            let (name, damage) = random.pick(&DAMAGES);
            let mut image = own.to_vec();
            damage(random, kind, &mut image);
            (name, image)
        }
    }
}

fn change_number(random: &mut Random, _kind: Kind, image: &mut Vec<u8>) {
    let (_, at) = random.pick(&HEAD);
    let old = number_at(image, at);
    let near = random.pick(&[old.wrapping_add(1), old.wrapping_sub(1)]);
    let border = random.pick(&NUMBERS);
    let number = random.pick(&[near, border]);
    image[at..at + NUMBER_SIZE].copy_from_slice(&number.to_le_bytes());
}

fn change_level(random: &mut Random, kind: Kind, image: &mut Vec<u8>) {
    let (_, section) = &SECTIONS[random.below(SECTIONS.len())];
    // Most books use only the first places.
    let most = random.pick(&[1, 4, section.len()]);
    let place = section.start + random.below(most);
    put_level(kind, image, place, random.pick(&LEVELS));
}

/// Moves a declaration to another level, also by either of its bytes alone, or
/// forgets it, if there is one.
fn change_declared(random: &mut Random, kind: Kind, image: &mut Vec<u8>) {
    let declared: Vec<usize> = (0..PLACES)
        .filter(|place| level(kind, image, *place) != 0)
        .collect();
    if !declared.is_empty() {
        let place = random.pick(&declared);
        let old = level(kind, image, place);
        let changed = [
            old.wrapping_add(1),
            old - 1,
            0,
            old ^ 0x100,
            old.swap_bytes(),
        ];
        put_level(kind, image, place, random.pick(&changed));
    }
}

fn change_byte(random: &mut Random, _kind: Kind, image: &mut Vec<u8>) {
    let at = random.below(image.len());
    image[at] = image[at].wrapping_add(1 + random.below(usize::from(u8::MAX)) as u8);
}

fn change_length(random: &mut Random, _kind: Kind, image: &mut Vec<u8>) {
    image.resize(random.pick(&LENGTHS), 0);
}
