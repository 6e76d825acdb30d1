//! Lists of calls on books up to as deep as they may be, with both turns tried
//! after every call: what comes of them is known from the node's depth, and the
//! pair gives the session it began with. In between come turns of foreign
//! images, on damaged books, with short scratches and into other buffers; and
//! the book may grow.

use crate::calls::Measure;
use crate::damaged_images::{foreign, manners};
use crate::image_places::{level, respelled, PLACES};
use crate::lists::{on_book, List};
use crate::made_growths::trace_point;
use crate::scratch_bytes::{random_scratch, LENGTHS};
use crate::seen::{Seen, RESULTS};
use crate::session_books::chain_book;
use crate::tally::{Met, Tally};
use crate::turn_call::{expect_both, Given, TurnsMet, TURNS};
use leskofar_reference::book::INT;
use leskofar_reference::damage::damaged;
use leskofar_reference::fresh_image;
use leskofar_reference::image::{Kind, Owed};
use leskofar_reference::maker::Maker;
use leskofar_reference::random::{Random, AT_TIMES, HARDLY_EVER, OFTEN, RARELY};
use leskofar_reference::random_books::{random_book, Counts};
use leskofar_reference::refusal::TOO_DEEP_FOR_NARROW;
use leskofar_reference::turns::NARROW_DEPTH;
use std::iter::successors;

const SEED: u64 = 0x6E61_7272;
/// Random lists, and the most calls of one.
const LISTS: usize = 5_000;
const CALLS: usize = 8;
/// How deep the chains of random books are.
const DEPTHS: [usize; 16] = [
    1, 8, 40, 62, 63, 64, 65, 66, 80, 128, 255, 256, 257, 320, 399, 400,
];
/// The size of the other books.
const LARGE: usize = 60;
/// The most new constants and literals, and nodes beside a chain.
const NEW: usize = 12;
const ASIDE: usize = 6;
/// The largest level that a byte holds.
const BYTE: usize = u8::MAX as usize;
/// What both turns answer, and what only the turn back does.
const ANSWERS: [u32; 9] = [0, 1, 2, 3, 4, 5, 6, 28, 20];

const LARGE_NUMBER: &str = "a node's number above 64 and its depth not";
const SMALL_LEVELS: &str = "deeper than 64 with levels up to 64";
const HIGH_BYTES: &str = "levels above 255";
const GROWN: &str = "on a book that has grown";
/// First by what is owed and by the depth, of which there are three bands.
const BANDS: usize = 3;
const EVERYTHING: [&str; 13] = [
    "nothing owed, up to 64 deep",
    "nothing owed, up to 255 deep",
    "nothing owed, deeper",
    "a reply owed, up to 64 deep",
    "a reply owed, up to 255 deep",
    "a reply owed, deeper",
    "a model owed, up to 64 deep",
    "a model owed, up to 255 deep",
    "a model owed, deeper",
    LARGE_NUMBER,
    SMALL_LEVELS,
    HIGH_BYTES,
    GROWN,
];

/// What the lists met.
#[derive(Default)]
struct Lists {
    calls: Seen,
    turns: TurnsMet,
    shapes: Met<&'static str>,
    images: Met<&'static str>,
}

/// A deep chain, mostly; else any book, rarely one at every limit.
fn book(random: &mut Random) -> Maker {
    if random.one_in(2 * HARDLY_EVER) {
        random_book(random, Counts::limits())
    } else if random.one_in(RARELY) {
        let counts = Counts::random(random, LARGE);
        random_book(random, counts)
    } else {
        deep_book(random)
    }
}

/// A chain, of which some nodes have a constant or a literal that no other has,
/// with some nodes beside it, which declare nothing.
fn deep_book(random: &mut Random) -> Maker {
    let depth = random.pick(&DEPTHS);
    let mut m = chain_book(random, depth);
    for _ in 0..random.up_to(NEW) {
        let name = format!("new{}", m.terms.len());
        let term = if random.one_in(OFTEN) {
            m.literal(&name, INT)
        } else {
            let v = m.constant(&name, INT);
            m.id(v)
        };
        m.contexts[random.below(depth)][1] = term;
    }
    for _ in 0..random.up_to(ASIDE) {
        let above = random.below(depth) as u32;
        let term = m.boolean(true);
        m.context(above, term);
    }
    m
}

/// How many nodes there are on the way to a node.
fn depth(m: &Maker, node: u32) -> usize {
    let parent = |node: &u32| {
        node.checked_sub(1)
            .map(|record| m.contexts[record as usize][0])
    };
    successors(parent(&node), parent).count()
}

impl Lists {
    /// Both turns of a list's session, and of the same spelled as a narrow one.
    fn turn(&mut self, list: &List) -> Result<(), String> {
        let depth = depth(list.maker(), list.node());
        let wide = list.image();
        let narrow = respelled(Kind::Wide, wide, Kind::Narrow);
        expect_both(list.book(), depth, &narrow, wide, &mut self.turns)?;
        self.visit(list, depth);
        Ok(())
    }

    fn visit(&mut self, list: &List, depth: usize) {
        let band = if depth <= NARROW_DEPTH {
            0
        } else if depth <= BYTE {
            1
        } else {
            2
        };
        let owed = match list.owed() {
            Owed::Nothing => 0,
            Owed::Reply => 1,
            Owed::Model => 2,
        };
        self.shapes.add(EVERYTHING[BANDS * owed + band]);
        let levels = (0..PLACES).map(|place| usize::from(level(Kind::Wide, list.image(), place)));
        let highest = levels.max().unwrap_or(0);
        let is_deep = depth > NARROW_DEPTH;
        let shapes = [
            (
                !is_deep && list.node() as usize > NARROW_DEPTH,
                LARGE_NUMBER,
            ),
            (is_deep && highest <= NARROW_DEPTH, SMALL_LEVELS),
            (highest > BYTE, HIGH_BYTES),
        ];
        for (is_met, shape) in shapes {
            if is_met {
                self.shapes.add(shape);
            }
        }
    }

    /// A turn of an image, on a book or with buffers that are not the list's.
    fn foreign_turn(
        &mut self,
        random: &mut Random,
        list: &List,
        other: &[u8],
    ) -> Result<(), String> {
        let turn = random.pick(&TURNS);
        let kind = turn.received();
        let [own, other] = [list.image(), other].map(|image| respelled(Kind::Wide, image, kind));
        let mut image = own.clone();
        if random.one_in(OFTEN) {
            let (manner, changed) = foreign(random, kind, &own, &other);
            self.images.add(manner);
            image = changed;
        }
        let mut book = list.book().to_vec();
        if random.one_in(OFTEN) {
            book = damaged(random, list.maker());
        }
        let mut scratch = random_scratch(random);
        if random.one_in(AT_TIMES) {
            let length = random.pick(&LENGTHS);
            scratch = random.bytes(length);
        }
        let mut room = turn.written().image_size();
        if random.one_in(RARELY) {
            room = random.pick(&[0, room - 1, room + 1, kind.image_size()]);
        }
        let given = Given {
            book: &book,
            image: &image,
            scratch: &scratch,
            room,
        };
        turn.compare(&given, &mut self.turns)?;
        Ok(())
    }

    /// Lets a list's book grow by a node, if there is room.
    fn grow(&mut self, random: &mut Random, list: &mut List) -> Result<(), String> {
        let parent = random.up_to(list.maker().contexts.len()) as u32;
        if let Some(grown) = trace_point(parent, b"t").new_book(list.book()) {
            list.go_on(&grown, &mut self.calls)?;
            self.turn(list)?;
            self.shapes.add(GROWN);
        }
        Ok(())
    }

    /// A list of random calls, and the image that it leaves.
    fn random_list(
        &mut self,
        random: &mut Random,
        other: &[u8],
        measure: &mut Measure,
    ) -> Result<Vec<u8>, String> {
        let m = book(random);
        on_book(&m, |list| {
            for _ in 0..=random.below(CALLS) {
                list.random_step(random, other, measure, &mut self.calls)?;
                self.turn(list)?;
                if random.one_in(OFTEN) {
                    self.foreign_turn(random, list, other)?;
                }
                if random.one_in(RARELY) {
                    self.grow(random, list)?;
                }
            }
            Ok(list.image().to_vec())
        })
    }
}

pub fn run(tally: &mut Tally) {
    let lists = tally.share(LISTS);
    tally.group("turns, random lists of calls", || {
        let mut met = Lists::default();
        let mut measure = Measure::new();
        let mut random = Random::new(SEED);
        let mut other = fresh_image().to_vec();
        for _ in 0..lists {
            other = met.random_list(&mut random, &other, &mut measure)?;
        }
        met.calls.results.all_of(&RESULTS)?;
        met.images.all_of(&manners())?;
        let shapes = met.shapes.only(&EVERYTHING)?;
        let narrow = [&ANSWERS[..], &[TOO_DEEP_FOR_NARROW]].concat();
        let turns = met.turns.only(&ANSWERS, &narrow)?;
        Ok(format!("{lists} lists, {turns}, met: {shapes}"))
    });
}
