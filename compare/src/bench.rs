//! Speed as a ratio to the reference, both measured in this run.

use crate::bench_audit;
use crate::bench_listing;
use crate::bench_nodes;
use crate::bench_sessions;
use crate::bench_table::{head, row, spaced, LONG, SHORT, TERMS};
use crate::bench_turns;
use crate::bench_writer;
use crate::library;
use crate::made_books::full;
use crate::made_costly::overlapping;
use crate::made_symbols::{many_names, NameSort};
use crate::made_terms::{flat, flat_numbers, flat_of, nest_of};
use crate::timing::{fastest, ratio};
use leskofar_reference::book_test::SCRATCH_SIZE;
use leskofar_reference::maker::Maker;
use leskofar_reference::random::Random;
use leskofar_reference::random_books::{random_book, Counts};
use std::hint::black_box;

const SEED: u64 = 1;
const MIDDLE: usize = 30;
/// The nests that are printed: one that costs a call for each term, and one
/// that costs none.
const NESTS: [&str; 2] = ["bodies before a pattern", "only arguments"];
/// Numbers of flat terms, with as many digits as short names have letters.
const NUMBERS: [(&str, i64); 2] = [
    ("flat, positive numbers", 123_456_789),
    ("flat, negative numbers", -123_456_789),
];
/// Names that get bars.
const BARRED: [(&str, usize); 2] = [
    ("flat, short names that get bars", SHORT),
    ("flat, long names that get bars", LONG),
];
/// Books with as many names as there can be, all of one long text.
const MANY_NAMES: [(&str, NameSort); 4] = [
    ("long simple names", NameSort::Simple),
    ("long names that get bars", NameSort::GetsBars),
    ("long names between bars", NameSort::Quoted),
    (
        "long names, the last of them refused 28",
        NameSort::LastIsBad,
    ),
];
/// Entries that all ranges of a book share.
const ENTRIES: [usize; 4] = [256, 512, 1024, 2048];

/// A small book, a middle one, and one with so many records.
pub fn three_books(largest: Counts) -> [(&'static str, Maker); 3] {
    let mut random = Random::new(SEED);
    let middle = Counts::random(&mut random, MIDDLE);
    [
        ("a small book", full()),
        ("a middle book", random_book(&mut random, middle)),
        ("the largest book", random_book(&mut random, largest)),
    ]
}

fn bench_book_test() {
    let made = three_books(Counts::limits());
    let made = made.map(|(name, m)| (name.to_string(), m.book()));
    let mut books = made.to_vec();
    books.extend(ENTRIES.map(|entries| {
        let name = format!("ranges that share {entries} entries");
        (name, overlapping(entries).book())
    }));
    books.extend(MANY_NAMES.map(|(name, sort)| (name.to_string(), many_names(sort).book())));
    for (name, book) in &books {
        let mut scratch = [0; SCRATCH_SIZE];
        let mut other = [0; SCRATCH_SIZE];
        let [ours, theirs] = fastest([
            &mut || {
                black_box(library::book_test(black_box(book), &mut scratch));
            },
            &mut || {
                let _ = black_box(leskofar_reference::book_test(black_box(book), &mut other));
            },
        ]);
        println!(
            "book test, {name} ({} bytes): ratio {:.2} (library {ours:?}, reference {theirs:?})",
            book.len(),
            ratio(ours, theirs)
        );
    }
}

/// Prints a row of the table: the last term of a book in one layout.
fn bench_print(name: &str, m: &Maker, newlines: bool) {
    let term = m.terms.len() as u32 - 1;
    let flag = u32::from(newlines);
    let layout = if newlines { "lines" } else { "one line" };
    row(
        &format!("{name}, {layout}"),
        m,
        |book, scratch, text| library::print(book, scratch, term, 0, flag, 0, text),
        |book, scratch, text| leskofar_reference::print(book, scratch, term, 0, newlines, 0, text),
    );
}

fn bench_printing() {
    head("term, layout");
    for newlines in [false, true] {
        for (name, letters) in [("flat, short names", SHORT), ("flat, long names", LONG)] {
            for terms in TERMS {
                bench_print(name, &flat(terms - 1, letters), newlines);
            }
        }
        for (name, letters) in BARRED {
            for terms in TERMS {
                bench_print(name, &flat_of(terms - 1, &spaced(letters)), newlines);
            }
        }
        for (name, x) in NUMBERS {
            for terms in TERMS {
                bench_print(name, &flat_numbers(terms - 1, x), newlines);
            }
        }
        for shape in NESTS {
            for terms in TERMS {
                bench_print(shape, &nest_of(shape, terms), newlines);
            }
        }
    }
}

pub fn run() {
    bench_book_test();
    bench_printing();
    bench_listing::run();
    bench_sessions::run();
    bench_turns::run();
    bench_nodes::run();
    bench_writer::run();
    bench_audit::run();
}
