//! The table of calls that print: speed as ratios, and how much of a call is
//! the book test and the measuring.

use crate::library::{self, Printed};
use crate::timing::{fastest, percent, ratio};
use leskofar_reference::book_test::SCRATCH_SIZE;
use leskofar_reference::maker::Maker;
use std::hint::black_box;

/// Terms of the books that are printed, up to the most that a book can have.
pub const TERMS: [usize; 4] = [128, 256, 512, 1024];
/// Letters of the names in flat terms.
pub const SHORT: usize = 9;
pub const LONG: usize = 1000;

/// A name of so many letters that gets bars.
pub fn spaced(letters: usize) -> String {
    let mut name = "v".repeat(letters - 1);
    name.push(' ');
    name
}

/// More than any text here has.
const ROOM: usize = 1 << 24;

/// Begins a table whose first column says what is printed.
pub fn head(printed: &str) {
    println!();
    println!(
        "| {printed} | terms | bytes of text | MB/s | ns for a byte | ratio to reference \
         | ratio to memcpy | book test, % | measuring, % |"
    );
    println!("|---|---|---|---|---|---|---|---|---|");
}

/// Prints a row: a call of the library and of the reference on a book, with a
/// scratch and a buffer of just the text's length.
pub fn row(
    name: &str,
    m: &Maker,
    on_library: impl Fn(&[u8], &mut [u8], &mut [u8]) -> Printed,
    on_reference: impl Fn(&[u8], &mut [u8], &mut [u8]) -> Result<usize, u32>,
) {
    let book = m.book();
    let mut text = vec![0; ROOM];
    let [mut scratch, mut other, mut third, mut fourth] = [[0; SCRATCH_SIZE]; 4];
    let printed = on_library(&book, &mut scratch, &mut text);
    assert_eq!(printed.refusal, 0, "{name}");
    let length = printed.length as usize;
    text.truncate(length);
    let [mut theirs, mut copied] = [text.clone(), text.clone()];
    let written = text.clone();
    let [ours, theirs, memcpy, measured, tested] = fastest([
        &mut || {
            black_box(on_library(black_box(&book), &mut scratch, &mut text));
        },
        &mut || {
            let _ = black_box(on_reference(black_box(&book), &mut other, &mut theirs));
        },
        &mut || {
            copied.copy_from_slice(black_box(&written));
            black_box(&mut copied);
        },
        // Refused for want of room once the text is measured.
        &mut || {
            black_box(on_library(black_box(&book), &mut third, &mut []));
        },
        &mut || {
            black_box(library::book_test(black_box(&book), &mut fourth));
        },
    ]);
    println!(
        "| {name} | {} | {length} | {:.0} | {:.2} | {:.2} | {:.1} | {:.0} | {:.0} |",
        m.terms.len(),
        length as f64 / ours.as_secs_f64() / 1e6,
        ours.as_secs_f64() * 1e9 / length as f64,
        ratio(ours, theirs),
        ratio(ours, memcpy),
        percent(tested, ours),
        percent(measured.saturating_sub(tested), ours)
    );
}
