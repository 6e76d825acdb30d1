//! Speed of both turns and of a reply as ratios to the reference, and to a move
//! of the library from the root to the session's node, all measured in this
//! run. A reply is the book test and the test of the session, and little more;
//! a turn too, and the other image.

use crate::bench_sessions::{path, ROOM};
use crate::calls::OK;
use crate::image_places::respelled;
use crate::library::book_test;
use crate::session_library::{self as library, Buffers};
use crate::timing::{fastest, percent, ratio};
use crate::turn_call::{Turn, TURNS};
use leskofar_reference::book_test::{MOST_DEPTH, SCRATCH_SIZE};
use leskofar_reference::fresh_image;
use leskofar_reference::image::{Kind, IMAGE_SIZE};
use leskofar_reference::session as reference;
use leskofar_reference::session::UNSAT;
use leskofar_reference::turns::NARROW_DEPTH;
use std::hint::black_box;

/// A narrow session is not deeper than the first.
const DEPTHS: [usize; 4] = [NARROW_DEPTH, 128, 256, MOST_DEPTH];

/// A book and its session at a node, with a question open.
struct Open {
    book: Vec<u8>,
    node: u32,
    image: Vec<u8>,
}

impl Open {
    fn new(depth: usize) -> Open {
        let m = path(depth);
        let goal = m.terms.len() as u32 - 1;
        let mut open = Open {
            book: m.book(),
            node: depth as u32,
            image: fresh_image().to_vec(),
        };
        let mut buffers = Buffers {
            scratch: &mut [0; SCRATCH_SIZE],
            image: &mut open.image,
            text: &mut vec![0; ROOM],
            reason: &mut [],
        };
        let asked = library::ask(&open.book, &mut buffers, open.node, goal);
        assert_eq!(asked.refusal, 0, "{depth} deep");
        open
    }

    /// Prints a row of the table.
    fn row(&self, name: &str, ours: &mut dyn FnMut(), theirs: &mut dyn FnMut()) {
        let mut text = vec![0; ROOM];
        let [mut scratch, mut other] = [[0; SCRATCH_SIZE]; 2];
        let [ours, theirs, moved, tested] = fastest([
            ours,
            theirs,
            &mut || {
                let mut buffers = Buffers {
                    scratch: &mut scratch,
                    image: &mut fresh_image(),
                    text: &mut text,
                    reason: &mut [],
                };
                black_box(library::move_to(&self.book, &mut buffers, self.node));
            },
            &mut || {
                black_box(book_test(black_box(&self.book), &mut other));
            },
        ]);
        println!(
            "| {name} | {} | {:.1} | {:.2} | {:.2} | {:.0} |",
            self.node,
            ours.as_secs_f64() * 1e6,
            ratio(ours, theirs),
            ratio(ours, moved),
            percent(tested, ours),
        );
    }

    fn bench_reply(&self) {
        let mut text = [[0; IMAGE_SIZE]; 2];
        let [ours, theirs] = &mut text;
        let [mut scratch, mut other] = [[0; SCRATCH_SIZE]; 2];
        self.row(
            "reply",
            &mut || {
                let mut buffers = Buffers {
                    scratch: &mut scratch,
                    image: &mut self.image.clone(),
                    text: ours,
                    reason: &mut [],
                };
                black_box(library::reply(&self.book, &mut buffers, OK, UNSAT));
            },
            &mut || {
                let mut image = self.image.clone();
                let replied = reference::reply(
                    &self.book,
                    &mut other,
                    &mut image,
                    false,
                    UNSAT,
                    theirs,
                    &mut [],
                );
                let _ = black_box(replied);
            },
        );
    }

    fn bench_turn(&self, turn: Turn) {
        let from = respelled(Kind::Wide, &self.image, turn.received());
        let [mut ours, mut theirs] = [(); 2].map(|()| vec![0; turn.written().image_size()]);
        let [mut scratch, mut other] = [[0; SCRATCH_SIZE]; 2];
        let refusal = turn.on_library(&self.book, &mut scratch, &from, &mut ours);
        let name = match refusal {
            0 => format!("{turn:?}"),
            refusal => format!("{turn:?}, refused {refusal}"),
        };
        self.row(
            &name,
            &mut || {
                black_box(turn.on_library(black_box(&self.book), &mut scratch, &from, &mut ours));
            },
            &mut || {
                black_box(turn.on_reference(black_box(&self.book), &mut other, &from, &mut theirs));
            },
        );
    }
}

pub fn run() {
    println!();
    println!(
        "| call | depth | µs | ratio to reference | ratio to a move from the root | book test, % |"
    );
    println!("|---|---|---|---|---|---|");
    for depth in DEPTHS {
        let open = Open::new(depth);
        open.bench_reply();
        for turn in TURNS {
            open.bench_turn(turn);
        }
    }
}
