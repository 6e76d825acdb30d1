//! A session's byte image: four numbers, then the levels. There are two kinds:
//! the wide one, which the calls take, and the narrow one, which only the turns
//! between the two know.

use crate::book::{number_at, NUMBER_SIZE};
use crate::levels::{Level, Levels, PLACES};

const KIND_AT: usize = 0;
const NODE_AT: usize = KIND_AT + NUMBER_SIZE;
const GOAL_AT: usize = NODE_AT + NUMBER_SIZE;
const OWED_AT: usize = GOAL_AT + NUMBER_SIZE;
const LEVELS_AT: usize = OWED_AT + NUMBER_SIZE;

/// The numbers are those of the images.
#[derive(Clone, Copy, Debug, PartialEq, Eq)]
pub enum Kind {
    Narrow = 1,
    Wide = 2,
}

impl Kind {
    /// The bytes of a level.
    const fn level_size(self) -> usize {
        match self {
            Kind::Narrow => 1,
            Kind::Wide => 2,
        }
    }

    pub const fn image_size(self) -> usize {
        LEVELS_AT + PLACES * self.level_size()
    }
}

pub const IMAGE_SIZE: usize = Kind::Wide.image_size();
pub const NARROW_SIZE: usize = Kind::Narrow.image_size();

/// What the host owes; the numbers are those of the images.
#[derive(Clone, Copy, Debug, PartialEq, Eq)]
pub enum Owed {
    Nothing = 0,
    Reply = 1,
    Model = 2,
}

#[derive(Clone, Debug, PartialEq, Eq)]
pub struct Session {
    pub node: u32,
    pub goal: u32,
    pub owed: Owed,
    pub levels: Levels,
}

/// The image of a fresh session.
pub fn fresh_image() -> [u8; IMAGE_SIZE] {
    let fresh = Session {
        node: 0,
        goal: 0,
        owed: Owed::Nothing,
        levels: Levels::NONE,
    };
    let mut image = [0; IMAGE_SIZE];
    fresh.write(Kind::Wide, &mut image);
    image
}

impl Session {
    /// None for an image of no session of this kind: its length, its kind or
    /// what it owes.
    pub fn read(kind: Kind, image: &[u8]) -> Option<Session> {
        if image.len() != kind.image_size() || number_at(image, KIND_AT) != kind as u32 {
            return None;
        }
        let owed = [Owed::Nothing, Owed::Reply, Owed::Model]
            .into_iter()
            .find(|owed| *owed as u32 == number_at(image, OWED_AT))?;
        let mut levels = Levels::NONE;
        let stored = image[LEVELS_AT..].chunks(kind.level_size());
        for (level, bytes) in levels.0.iter_mut().zip(stored) {
            *level = level_in(bytes);
        }
        Some(Session {
            node: number_at(image, NODE_AT),
            goal: number_at(image, GOAL_AT),
            owed,
            levels,
        })
    }

    /// Writes the session over an image of this kind's size; its levels have to
    /// fit there.
    pub fn write(&self, kind: Kind, image: &mut [u8]) {
        let numbers = [
            (KIND_AT, kind as u32),
            (NODE_AT, self.node),
            (GOAL_AT, self.goal),
            (OWED_AT, self.owed as u32),
        ];
        for (at, number) in numbers {
            image[at..at + NUMBER_SIZE].copy_from_slice(&number.to_le_bytes());
        }
        let places = image[LEVELS_AT..].chunks_mut(kind.level_size());
        for (place, level) in places.zip(self.levels.0) {
            let bytes = level.to_le_bytes();
            let (stored, rest) = bytes.split_at(place.len());
            assert!(rest.iter().all(|byte| *byte == 0), "level {level} fits");
            place.copy_from_slice(stored);
        }
    }
}

/// The low byte comes first.
fn level_in(bytes: &[u8]) -> Level {
    let from_high = bytes.iter().rev();
    from_high.fold(0, |level, byte| level << u8::BITS | Level::from(*byte))
}
