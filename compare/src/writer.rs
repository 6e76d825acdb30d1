//! Growths of books against the reference: each call on good, damaged and full
//! books, with arguments inside their ranges and just outside, and with every
//! buffer and scratch.

use crate::made_books::{faulty_books, full, good_books, over_the_limits};
use crate::made_growths::each_call;
use crate::scratch_bytes::{random_scratch, LEAST, LENGTHS};
use crate::tally::{Met, Tally};
use crate::writer_books::{deepest, growing_book};
use crate::writer_call::{Given, Grown, Growth, LARGEST_BOOK};
use crate::writer_edges;
use crate::writer_limits;
use crate::writer_lists;
use crate::writer_met::{End, Ends};
use crate::writer_names;
use crate::writer_random::Stock;
use crate::writer_terms;
use leskofar_reference::damage::damaged;
use leskofar_reference::filled_books::tiny;
use leskofar_reference::maker::Maker;
use leskofar_reference::random::{Random, AT_TIMES, HARDLY_EVER, OFTEN, RARELY};
use leskofar_reference::random_books::{random_book, Counts};

const SEED: u64 = 0x6772_6F77;
/// Random growths, and how many there are of one book.
const GROWTHS: usize = 200_000;
const GROWTHS_OF_A_BOOK: usize = 8;
/// Growths of each made book.
const GROWTHS_OF_A_MADE_BOOK: usize = 80;
const FULL_BOOKS: usize = 100;
/// How much longer than the new book a buffer is.
const LONGER: [usize; 3] = [1, 9, 4096];

/// Compares a growth and adds how it ends.
pub fn compare(growth: &Growth, given: &Given, ends: &mut Ends) -> Result<Grown, String> {
    let grown = growth.compare(given)?;
    ends.add(End::of(growth, given.book, &grown));
    Ok(grown)
}

/// With buffers of exactly the new book's length, a byte less, empty and
/// longer. Gives what is left in the exact one.
pub fn compare_in_every_room(
    growth: &Growth,
    book: &[u8],
    ends: &mut Ends,
) -> Result<Grown, String> {
    let length = growth.length(book);
    let mut in_room = |room: usize| {
        let given = Given {
            book,
            scratch: &LEAST,
            room,
        };
        compare(growth, &given, ends)
    };
    let longer = LONGER.map(|more| length + more);
    for room in [length.saturating_sub(1), 0].into_iter().chain(longer) {
        in_room(room)?;
    }
    in_room(length)
}

/// A buffer for a new book: just long enough, longer, too short by one, none.
pub fn room(random: &mut Random, length: usize) -> usize {
    if random.one_in(RARELY) {
        random.pick(&[length.saturating_sub(1), 0])
    } else if random.one_in(OFTEN) {
        length
    } else {
        let longer = length + random.pick(&LONGER);
        random.pick(&[longer, LARGEST_BOOK])
    }
}

/// A growth in some buffer, with some scratch.
fn compare_at_random(
    random: &mut Random,
    growth: &Growth,
    book: &[u8],
    ends: &mut Ends,
) -> Result<(), String> {
    let given = Given {
        book,
        scratch: &random_scratch(random),
        room: room(random, growth.length(book)),
    };
    compare(growth, &given, ends).map(|_| ())
}

/// Some growths of a book, of which these are the records.
fn compare_some(
    random: &mut Random,
    m: &Maker,
    book: &[u8],
    ends: &mut Ends,
) -> Result<(), String> {
    let stock = Stock::of(m);
    for _ in 0..GROWTHS_OF_A_BOOK {
        let growth = stock.growth(random);
        compare_at_random(random, &growth, book, ends)?;
    }
    Ok(())
}

fn made_groups(tally: &mut Tally) {
    tally.group("writer, each call, every buffer and scratch", || {
        let mut ends = Met::default();
        let mut random = Random::new(SEED);
        let book = &tiny().book();
        for growth in each_call(0, b"t") {
            compare_in_every_room(&growth, book, &mut ends)?;
            for length in LENGTHS {
                for room in [0, LARGEST_BOOK] {
                    let given = Given {
                        book,
                        scratch: &random.bytes(length),
                        room,
                    };
                    compare(&growth, &given, &mut ends)?;
                }
            }
        }
        ends.all_of(&End::accepted())
    });
    tally.group("writer, good books", || {
        let mut ends = Met::default();
        let mut random = Random::new(SEED);
        for m in good_books().into_iter().chain([tiny()]) {
            let stock = Stock::of(&m);
            let book = m.book();
            for _ in 0..GROWTHS_OF_A_MADE_BOOK {
                compare_in_every_room(&stock.growth(&mut random), &book, &mut ends)?;
            }
        }
        ends.all_of(&End::accepted())
    });
}

fn refused_group(tally: &mut Tally) {
    tally.group("writer, books that are refused", || {
        let mut ends = Met::default();
        let mut random = Random::new(SEED);
        for book in faulty_books().into_iter().chain(over_the_limits()) {
            for growth in each_call(0, b"t") {
                compare_in_every_room(&growth, &book, &mut ends)?;
            }
            compare_some(&mut random, &full(), &book, &mut ends)?;
        }
        ends.all_of(&End::received())
    });
}

fn random_groups(tally: &mut Tally) {
    let books = tally.share(FULL_BOOKS);
    tally.group("writer, books at every limit", || {
        let mut ends = Met::default();
        let mut random = Random::new(SEED);
        for _ in 0..books {
            let m = random_book(&mut random, Counts::limits());
            let book = m.book();
            if book.len() != LARGEST_BOOK {
                return Err(format!("{} bytes", book.len()));
            }
            compare_some(&mut random, &m, &book, &mut ends)?;
        }
        Ok(ends.said())
    });
    let growths = tally.share(GROWTHS);
    tally.group("writer, random growths", || {
        let mut ends = Met::default();
        let mut random = Random::new(SEED);
        for _ in 0..growths / GROWTHS_OF_A_BOOK {
            let m = if random.one_in(HARDLY_EVER) {
                deepest()
            } else {
                growing_book(&mut random)
            };
            let book = if random.one_in(AT_TIMES) {
                damaged(&mut random, &m)
            } else {
                m.book()
            };
            compare_some(&mut random, &m, &book, &mut ends)?;
        }
        ends.only(&End::all())
    });
}

pub fn run(tally: &mut Tally) {
    made_groups(tally);
    refused_group(tally);
    writer_edges::run(tally);
    writer_names::run(tally);
    writer_terms::run(tally);
    writer_limits::run(tally);
    random_groups(tally);
    writer_lists::run(tally);
}
