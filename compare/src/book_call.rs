//! The book test, made on the library and on the reference: the answer, and
//! every byte of the scratch and behind it.

use crate::buffers::Fenced;
use crate::library;
use crate::scratch_bytes::are_left;
use crate::tally::Met;

/// Gives the answer: 0, or the number of the refusal.
pub fn compare(book: &[u8], scratch: &[u8], met: &mut Met) -> Result<u32, String> {
    let [mut theirs, mut ours] = [scratch; 2].map(Fenced::holding);
    let expected = leskofar_reference::book_test(book, theirs.room())
        .err()
        .unwrap_or(0);
    let answer = library::book_test(book, ours.room());
    met.add(expected);
    let what = if answer != expected {
        format!("answer {answer}, expected {expected}")
    } else if !are_left([&ours, &theirs], scratch, answer) {
        format!("another scratch after {answer}")
    } else {
        return Ok(answer);
    };
    Err(format!("{what}, with scratch {scratch:?}, of {book:?}"))
}
