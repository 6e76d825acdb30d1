//! The book test against the reference.

use crate::book_call::compare;
use crate::made_books::{
    chain, each_number_changed, faulty_books, full, good_books, over_the_limits, too_deep_at,
};
use crate::scratch_bytes::{random_scratch, LEAST, LENGTHS};
use crate::tally::{Met, Tally};
use leskofar_reference::book::Section;
use leskofar_reference::book_test::MOST_DEPTH;
use leskofar_reference::damage::damaged;
use leskofar_reference::random::{Random, OFTEN};
use leskofar_reference::random_books::{any_random_book, Counts};
use leskofar_reference::refusal::DEPTH;

/// Random books, valid and damaged.
const RANDOM_BOOKS: usize = 200_000;
const SEED: u64 = 0x6C65_736B;
/// The usual sizes of random books.
const SIZES: [usize; 6] = [0, 1, 2, 4, 8, 24];
/// Depths around the deepest, and around those that were borders before.
const DEPTHS: [usize; 11] = [63, 64, 65, 66, 255, 256, 257, 399, 400, 401, 512];

fn compare_all(books: &[Vec<u8>], met: &mut Met) -> Result<(), String> {
    books
        .iter()
        .try_for_each(|book| compare(book, &LEAST, met).map(|_| ()))
}

pub fn run(tally: &mut Tally) {
    tally.group("book test, good books, every scratch", || {
        let mut met = Met::default();
        let mut random = Random::new(SEED);
        for m in good_books() {
            for length in LENGTHS {
                compare(&m.book(), &random.bytes(length), &mut met)?;
            }
        }
        met.all_of(&[0, 1])
    });
    tally.group("book test, limits", || {
        let mut met = Met::default();
        compare_all(&over_the_limits(), &mut met)?;
        for depth in DEPTHS {
            compare(&chain(depth).book(), &LEAST, &mut met)?;
        }
        for letter in [0x1F, 0x20, 0x7E, 0x7F] {
            let mut m = full();
            m.letters.push(letter);
            compare(&m.book(), &LEAST, &mut met)?;
        }
        met.all_of(&[0, 2, 3, 4, 6])
    });
    tally.group("book test, a node 401 deep at each place", || {
        let mut met = Met::default();
        for node in MOST_DEPTH + 1..=Section::Contexts.most() {
            compare(&too_deep_at(node).book(), &LEAST, &mut met)?;
        }
        met.only(&[DEPTH])
    });
    tally.group("book test, every prefix and some bytes more", || {
        let mut met = Met::default();
        let book = full().book();
        for length in 0..=book.len() {
            compare(&book[..length], &LEAST, &mut met)?;
        }
        let mut longer = book.clone();
        longer.push(0);
        compare(&longer, &LEAST, &mut met)?;
        met.all_of(&[0, 2])
    });
    tally.group("book test, every number at every border", || {
        let mut met = Met::default();
        let mut first = Ok(());
        each_number_changed(&full(), &mut |book| {
            if first.is_ok() {
                first = compare(book, &LEAST, &mut met).map(|_| ());
            }
        });
        first?;
        met.all_of(&[0, 2, 4, 5, 28])
    });
    tally.group("book test, every refusal with every later one", || {
        let mut met = Met::default();
        compare_all(&faulty_books(), &mut met)?;
        met.all_of(&[0, 2, 3, 4, 5, 6, 28])
    });
    let random_books = tally.share(RANDOM_BOOKS);
    tally.group("book test, random books", || {
        let mut met = Met::default();
        let mut random = Random::new(SEED);
        for _ in 0..random_books {
            let size = random.pick(&SIZES);
            let counts = Counts::random(&mut random, size);
            let m = any_random_book(&mut random, counts);
            let book = if random.one_in(OFTEN) {
                m.book()
            } else {
                damaged(&mut random, &m)
            };
            compare(&book, &random_scratch(&mut random), &mut met)?;
        }
        met.all_of(&[0, 1, 2, 3, 4, 5, 6, 28])
    });
}
