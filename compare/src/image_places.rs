//! The places of docs/SESSION.md in images of both kinds, spelled apart from
//! the reference's.

use leskofar_reference::book::{Section, NUMBER_SIZE};
use leskofar_reference::image::Kind;
use std::ops::Range;

const KIND_AT: usize = 0;
const NODE_AT: usize = KIND_AT + NUMBER_SIZE;
const GOAL_AT: usize = NODE_AT + NUMBER_SIZE;
const OWED_AT: usize = GOAL_AT + NUMBER_SIZE;
pub const LEVELS_AT: usize = OWED_AT + NUMBER_SIZE;
/// The numbers of the head, each with its name.
pub const HEAD: [(&str, usize); 4] = [
    ("kind", KIND_AT),
    ("node", NODE_AT),
    ("goal", GOAL_AT),
    ("owed", OWED_AT),
];

/// The places of levels, by sections.
pub const TYPES: Range<usize> = places(0, Section::Types);
pub const CONSTANTS: Range<usize> = places(TYPES.end, Section::Constants);
pub const FUNCTIONS: Range<usize> = places(CONSTANTS.end, Section::Functions);
pub const AXIOMS: Range<usize> = places(FUNCTIONS.end, Section::Axioms);
pub const LITERALS: Range<usize> = places(AXIOMS.end, Section::Terms);
pub const SECTIONS: [(&str, Range<usize>); 5] = [
    ("types", TYPES),
    ("constants", CONSTANTS),
    ("functions", FUNCTIONS),
    ("axioms", AXIOMS),
    ("literals", LITERALS),
];
pub const PLACES: usize = LITERALS.end;

const fn places(start: usize, section: Section) -> Range<usize> {
    start..start + section.most()
}

/// The bytes of a level.
const fn level_size(kind: Kind) -> usize {
    match kind {
        Kind::Narrow => 1,
        Kind::Wide => 2,
    }
}

/// The bytes of some levels.
fn bytes_of(kind: Kind, places: Range<usize>) -> Range<usize> {
    let size = level_size(kind);
    LEVELS_AT + places.start * size..LEVELS_AT + places.end * size
}

/// Every field of an image, with its name.
pub fn fields(kind: Kind) -> Vec<(&'static str, Range<usize>)> {
    let head = HEAD.map(|(name, at)| (name, at..at + NUMBER_SIZE));
    let levels = SECTIONS.map(|(name, places)| (name, bytes_of(kind, places)));
    head.into_iter().chain(levels).collect()
}

/// A level, of which the low byte comes first.
pub fn level(kind: Kind, image: &[u8], place: usize) -> u16 {
    let bytes = &image[bytes_of(kind, place..place + 1)];
    let high = bytes.get(1).copied().unwrap_or(0);
    u16::from_le_bytes([bytes[0], high])
}

/// Stores a level, in a narrow image its low byte.
pub fn put_level(kind: Kind, image: &mut [u8], place: usize, level: u16) {
    let bytes = &mut image[bytes_of(kind, place..place + 1)];
    let stored = level.to_le_bytes();
    bytes.copy_from_slice(&stored[..bytes.len()]);
}

/// An image by its head behind the kind, and by the levels that are not 0.
pub fn spelled(kind: Kind, head: [u32; 3], levels: &[(usize, u16)]) -> Vec<u8> {
    let numbers = [kind as u32].into_iter().chain(head);
    let mut image: Vec<u8> = numbers.flat_map(|number| number.to_le_bytes()).collect();
    image.resize(LEVELS_AT + PLACES * level_size(kind), 0);
    for (place, level) in levels {
        put_level(kind, &mut image, *place, *level);
    }
    image
}

/// The same head and levels in another kind; in a narrow one a level has only
/// its low byte.
pub fn respelled(from: Kind, image: &[u8], to: Kind) -> Vec<u8> {
    let mut other = spelled(to, [0; 3], &[]);
    other[NODE_AT..LEVELS_AT].copy_from_slice(&image[NODE_AT..LEVELS_AT]);
    for place in 0..PLACES {
        put_level(to, &mut other, place, level(from, image, place));
    }
    other
}
