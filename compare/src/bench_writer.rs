//! Speed of the writer as a ratio to the reference, both measured in this run:
//! each call on a small, a middle and the largest book that it can be made on,
//! on books of which one is twice as long as the one before, and a search among
//! names that share their letters, whose time the book's length does not bound.

use crate::bench::three_books;
use crate::library::book_test;
use crate::made_growths::{each_call, extend, CALL_NAMES};
use crate::timing::{fastest, percent, ratio};
use crate::writer_call::{Growth, LARGEST_BOOK};
use crate::writer_library::Buffers;
use leskofar_reference::book::{Section, INT};
use leskofar_reference::book_test::SCRATCH_SIZE;
use leskofar_reference::filled_books::filled_up;
use leskofar_reference::maker::Maker;
use leskofar_reference::random_books::Counts;
use std::hint::black_box;

/// Which part of every section the books fill that show how time grows.
const PARTS: [usize; 4] = [16, 8, 4, 2];
/// Letters that all names share in books where the search is long; as many are
/// left for the text.
const SHARED: [usize; 4] = [512, 1024, 2048, 4096];
const LETTER: u8 = b'a';
const OTHER: u8 = b'b';
/// Letters at the end of a text that the library compares first: a text that
/// differs just before them costs the most.
const COMPARED_FIRST: usize = 8;
/// A text that is looked for among all names, and not found.
const TEXT: &[u8] = b"not among the others";
/// The most records that a call appends to a section: letters.
const APPENDED: usize = TEXT.len() + b"probe%0=".len();

/// Adds two terms that nothing refers to, and gives the first.
fn with_free_terms(m: &mut Maker) -> u32 {
    let [first, _] = [(); 2].map(|()| m.boolean(true));
    first
}

/// A book that fills such a part of every section.
fn part_of_the_largest(part: usize) -> Maker {
    let mut m = Maker::default();
    m.constant("c", INT);
    // Contexts take terms, and so come first.
    let mut sections = Section::ALL;
    sections.sort_by_key(|section| *section != Section::Contexts);
    for section in sections {
        m = filled_up(m, section, section.most() / part);
    }
    m
}

/// As many names as leave room for one, all with the same letters.
fn names_alike(letters: usize) -> Maker {
    let mut m = Maker::default();
    m.letters = vec![LETTER; letters];
    let names = Section::Names.most() - 1;
    m.names = vec![[0, letters as u32]; names];
    m
}

/// Prints a row of the table.
fn bench(call: &str, name: &str, growth: &Growth, book: &[u8]) {
    let [mut ours, mut theirs] = [(); 2].map(|()| vec![0; LARGEST_BOOK]);
    let [mut first, mut second, mut third] = [[0; SCRATCH_SIZE]; 3];
    let mut on_library = || {
        growth.on_library(Buffers {
            book: black_box(book),
            scratch: &mut first,
            new_book: &mut ours,
        })
    };
    let answer = on_library();
    assert_eq!(answer.refusal, 0, "{call}, {name}");
    let [library, reference, tested] = fastest([
        &mut || {
            black_box(on_library());
        },
        &mut || {
            black_box(growth.on_reference(Buffers {
                book: black_box(book),
                scratch: &mut second,
                new_book: &mut theirs,
            }));
        },
        &mut || {
            black_box(book_test(black_box(book), &mut third));
        },
    ]);
    println!(
        "| {call} | {name} | {} | {} | {:.1} | {:.2} | {:.2} | {:.0} |",
        book.len(),
        answer.length,
        library.as_secs_f64() * 1e6,
        library.as_secs_f64() * 1e9 / book.len() as f64,
        ratio(library, reference),
        percent(tested, library),
    );
}

/// A row for each call and book.
fn bench_books(books: Vec<(String, Maker)>) {
    for (at, call) in CALL_NAMES.into_iter().enumerate() {
        for (name, m) in &books {
            let mut m = m.clone();
            let free = with_free_terms(&mut m);
            bench(call, name, &each_call(free, TEXT)[at], &m.book());
        }
    }
}

pub fn run() {
    println!();
    println!(
        "| call | on | bytes of the book | of the new one | µs | ns for a byte \
         | ratio to reference | book test of the book received, % |"
    );
    println!("|---|---|---|---|---|---|---|---|");
    let three = three_books(Counts::short_of_limits(APPENDED));
    bench_books(three.map(|(name, m)| (name.to_string(), m)).to_vec());
    let parts = PARTS.map(|part| {
        let name = format!("one in {part} of every section");
        (name, part_of_the_largest(part))
    });
    bench_books(parts.to_vec());
    for letters in SHARED {
        let mut m = names_alike(letters);
        let free = with_free_terms(&mut m);
        let mut trace = vec![LETTER; letters];
        trace[letters - COMPARED_FIRST - 1] = OTHER;
        let name = format!("names that share {letters} letters");
        let growth = extend(0, free, Some(&trace));
        bench("extend", &name, &growth, &m.book());
    }
}
