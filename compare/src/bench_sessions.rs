//! Speed of a move and an ask as a ratio to the reference, both measured in
//! this run: cost against path length and term count.

use crate::bench_literals;
use crate::bench_table::{spaced, LONG, TERMS};
use crate::library::book_test;
use crate::made_costly::explained_often;
use crate::made_terms::{flat, flat_of, nest_of};
use crate::session_library::{self as library, Answer, Buffers};
use crate::timing::{fastest, percent, ratio};
use leskofar_reference::book::{kind, Section, INT};
use leskofar_reference::book_test::{MOST_DEPTH, SCRATCH_SIZE};
use leskofar_reference::fresh_image;
use leskofar_reference::maker::Maker;
use leskofar_reference::session as reference;
use std::hint::black_box;

/// Up to the deepest node.
const DEPTHS: [usize; 4] = [64, 128, 256, MOST_DEPTH];
/// Entries of ExplainedBy and Explains, up to as many as a book can have.
const ENTRIES: [usize; 4] = [256, 512, 1024, 2048];
/// The names of the arguments of flat terms.
const LETTERS: usize = 9;
/// The nest that costs a call for each term.
const NEST: &str = "bodies before a pattern";
/// More than any text here has.
pub const ROOM: usize = 1 << 24;

/// A move, or an ask where there is a goal.
#[derive(Clone, Copy)]
pub struct Travel {
    pub from: u32,
    pub to: u32,
    pub goal: Option<u32>,
}

impl Travel {
    fn on_library(self, book: &[u8], b: &mut Buffers) -> Answer {
        match self.goal {
            None => library::move_to(book, b, self.to),
            Some(goal) => library::ask(book, b, self.to, goal),
        }
    }

    fn on_reference(self, book: &[u8], b: &mut Buffers) -> Result<usize, u32> {
        match self.goal {
            None => reference::move_to(book, b.scratch, b.image, self.to, b.text),
            Some(goal) => reference::ask(book, b.scratch, b.image, self.to, goal, b.text),
        }
    }
}

/// A call's own buffers, and the image that it begins with.
struct Desk {
    start: Vec<u8>,
    image: Vec<u8>,
    scratch: [u8; SCRATCH_SIZE],
    text: Vec<u8>,
}

impl Desk {
    /// At a node of a book.
    fn new(book: &[u8], node: u32) -> Desk {
        let mut desk = Desk {
            start: fresh_image().to_vec(),
            image: fresh_image().to_vec(),
            scratch: [0; SCRATCH_SIZE],
            text: vec![0; ROOM],
        };
        library::move_to(book, &mut desk.begin(), node);
        desk.start = desk.image.clone();
        desk
    }

    fn begin(&mut self) -> Buffers<'_> {
        self.image.copy_from_slice(&self.start);
        Buffers {
            scratch: &mut self.scratch,
            image: &mut self.image,
            text: &mut self.text,
            reason: &mut [],
        }
    }
}

/// Prints a row of the table.
pub fn bench(name: &str, size: usize, m: &Maker, travel: Travel) {
    let book = m.book();
    let [mut first, mut second, mut third] = [(); 3].map(|()| Desk::new(&book, travel.from));
    let answer = travel.on_library(&book, &mut first.begin());
    assert_eq!(answer.refusal, 0, "{name}");
    let stay = Travel {
        to: travel.from,
        goal: None,
        ..travel
    };
    let mut scratch = [0; SCRATCH_SIZE];
    let [ours, theirs, tested, book_tested] = fastest([
        &mut || {
            black_box(travel.on_library(black_box(&book), &mut first.begin()));
        },
        &mut || {
            let _ = black_box(travel.on_reference(black_box(&book), &mut second.begin()));
        },
        // It writes nothing: the book test and the test of the session.
        &mut || {
            black_box(stay.on_library(black_box(&book), &mut third.begin()));
        },
        &mut || {
            black_box(book_test(black_box(&book), &mut scratch));
        },
    ]);
    println!(
        "| {name} | {size} | {} | {} | {:.1} | {:.2} | {:.0} | {:.0} |",
        m.terms.len(),
        answer.text,
        ours.as_secs_f64() * 1e6,
        ratio(ours, theirs),
        percent(book_tested, ours),
        percent(tested.saturating_sub(book_tested), ours),
    );
}

/// Nodes below each other, each with a constant of its own as far as there are
/// so many, and a sibling of the last. The last term is a goal.
pub fn path(depth: usize) -> Maker {
    let mut m = Maker::default();
    let most = Section::Constants.most();
    for constant in 0..most.min(depth + 1) {
        m.constant(&format!("v{constant}"), INT);
    }
    let not = m.name("not");
    let not_of = |m: &mut Maker, constant: usize| {
        let args = [m.id((constant % most) as u32)];
        let [start, count] = m.list(&args);
        m.term(kind::BUILT_IN, [not, start, count])
    };
    for node in 0..=depth {
        let term = not_of(&mut m, node);
        // The sibling hangs where the last one does.
        let above = node.min(depth - 1);
        m.context(above as u32, term);
    }
    not_of(&mut m, 0);
    m
}

/// From the root to a node with the last term.
pub fn bench_move(name: &str, size: usize, mut m: Maker) {
    let last = m.terms.len() as u32 - 1;
    let to = m.context(0, last);
    let travel = Travel {
        from: 0,
        to,
        goal: None,
    };
    bench(&format!("move, {name}"), size, &m, travel);
}

/// To a node with the last term, and that term asked.
pub fn bench_last_term(name: &str, size: usize, mut m: Maker) {
    let last = m.terms.len() as u32 - 1;
    let node = m.context(0, last);
    for (call, from, to, goal) in [
        ("move", 0, node, None),
        ("ask", 0, 0, Some(last)),
        ("move back", node, 0, None),
    ] {
        let travel = Travel { from, to, goal };
        bench(&format!("{call}, {name}"), size, &m, travel);
    }
}

pub fn run() {
    println!();
    println!(
        "| call | size | terms | bytes of text | µs | ratio to reference | book test, % \
         | test of the session, % |"
    );
    println!("|---|---|---|---|---|---|---|---|");
    for depth in DEPTHS {
        let m = path(depth);
        let [node, sibling] = [depth as u32, depth as u32 + 1];
        let goal = m.terms.len() as u32 - 1;
        for (name, from, to, goal) in [
            ("move, root to depth", 0, node, None),
            ("move, depth to root", node, 0, None),
            ("move, depth to sibling", node, sibling, None),
            ("ask, at depth", node, node, Some(goal)),
        ] {
            bench(name, depth, &m, Travel { from, to, goal });
        }
    }
    for terms in TERMS {
        bench_last_term("flat terms", terms, flat(terms - 1, LETTERS));
    }
    for (name, text) in [
        ("flat terms, long names", "v".repeat(LONG)),
        ("flat terms, names that get bars", spaced(LETTERS)),
        ("flat terms, long names that get bars", spaced(LONG)),
    ] {
        for terms in TERMS {
            bench_last_term(name, terms, flat_of(terms - 1, &text));
        }
    }
    for terms in TERMS {
        bench_last_term("nested terms", terms, nest_of(NEST, terms));
    }
    bench_literals::rows();
    for entries in ENTRIES {
        bench_move(
            "axioms listed often, by entries",
            entries,
            explained_often(entries),
        );
    }
}
