//! Random books and numbers for calls that print.

use leskofar_reference::damage::damaged;
use leskofar_reference::random::{Random, HARDLY_EVER, OFTEN, RARELY};
use leskofar_reference::random_books::{any_random_book, random_book, Counts};

/// The usual sizes of random books, and a rare one.
const SIZES: [usize; 5] = [1, 2, 4, 8, 16];
const LARGE: usize = 80;

/// A book that passes the book test.
pub fn good_book(random: &mut Random) -> Vec<u8> {
    let size = if random.one_in(HARDLY_EVER) {
        LARGE
    } else {
        random.pick(&SIZES)
    };
    let counts = Counts::random(random, size);
    random_book(random, counts).book()
}

/// A book that is damaged at times, or has bad names.
pub fn any_book(random: &mut Random) -> Vec<u8> {
    let size = random.pick(&SIZES);
    let counts = Counts::random(random, size);
    let m = any_random_book(random, counts);
    if random.one_in(OFTEN) {
        m.book()
    } else {
        damaged(random, &m)
    }
}

/// A term of a book, more often one of the last, which have others inside.
pub fn any_term(random: &mut Random, count: usize) -> u32 {
    let below_last = random.below(count) * random.below(count) / count;
    (count - 1 - below_last) as u32
}

/// A number within a count, the first ones behind it, or a huge one.
pub fn any_number(random: &mut Random, count: usize) -> u32 {
    if random.one_in(RARELY) {
        random.pick(&[count as u32, count as u32 + 1, 1 << 31, u32::MAX])
    } else {
        random.up_to(count) as u32
    }
}
