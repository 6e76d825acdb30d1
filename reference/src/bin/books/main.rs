//! Writes random books for the tests that compare what two programs say of a
//! book's names and sorts. Every book passes the book test; many have names
//! that are no good, or terms without a sort, and some have neither.
#![deny(warnings)]

mod names;
mod sorted;
mod sorts;
mod tiny;

use leskofar_reference::book_test::check;
use leskofar_reference::chains::{random_chain_plan, MOST_STEPS};
use leskofar_reference::maker::Maker;
use leskofar_reference::random::{Random, AT_TIMES, OFTEN, RARELY};
use leskofar_reference::random_books::{random_book, Counts};
use std::env::args;
use std::fs;
use std::io;
use std::path::Path;
use std::process::ExitCode;

const HELP: &str = "\
usage: books DIRECTORY COUNT SEED

Writes COUNT random books into DIRECTORY: 1.book, 2.book and so on. Each passes
the book test; names and sorts may be good or bad. The same SEED gives the same
books.
";
const WRONG_USAGE: u8 = 2;
/// How large the books are that are random in everything.
const WILD_SIZE: usize = 6;
/// The most faults of one sort in a book.
const MOST_FAULTS: usize = 2;

fn main() -> ExitCode {
    let arguments: Vec<String> = args().skip(1).collect();
    let Some((directory, count, seed)) = parsed(&arguments) else {
        eprint!("{HELP}");
        return ExitCode::from(WRONG_USAGE);
    };
    match write_books(Path::new(directory), count, seed) {
        Ok(()) => ExitCode::SUCCESS,
        Err(error) => {
            eprintln!("{directory}: {error}");
            ExitCode::from(WRONG_USAGE)
        }
    }
}

fn parsed(arguments: &[String]) -> Option<(&str, usize, u64)> {
    let [directory, count, seed] = arguments else {
        return None;
    };
    Some((directory, count.parse().ok()?, seed.parse().ok()?))
}

fn write_books(directory: &Path, count: usize, seed: u64) -> io::Result<()> {
    let mut random = Random::new(seed);
    for number in 1..=count {
        let book = passing_book(&mut random);
        fs::write(directory.join(format!("{number}.book")), book)?;
    }
    Ok(())
}

/// Faults can be of a sort that the book test refuses; then another book is
/// made.
fn passing_book(random: &mut Random) -> Vec<u8> {
    loop {
        let book = spoilt(random).book();
        if check(&book).is_ok() {
            return book;
        }
    }
}

/// A book with or without faults; names and sorts are spoilt apart. Tiny books
/// have their own.
fn spoilt(random: &mut Random) -> Maker {
    if random.one_in(OFTEN) {
        return tiny::tiny_book(random);
    }
    let mut maker = base(random);
    if random.one_in(OFTEN) {
        for _ in 0..=random.below(MOST_FAULTS) {
            names::spoil(random, &mut maker);
        }
    }
    if random.one_in(OFTEN) {
        for _ in 0..=random.below(MOST_FAULTS) {
            sorts::spoil(random, &mut maker);
        }
    }
    maker
}

/// Mostly books whose names and sorts are good.
fn base(random: &mut Random) -> Maker {
    if random.one_in(RARELY) {
        let counts = Counts::random(random, WILD_SIZE);
        let mut maker = random_book(random, counts);
        if random.one_in(OFTEN) {
            names::rename_all(&mut maker);
        }
        maker
    } else if random.one_in(AT_TIMES) {
        random_chain_plan(random, MOST_STEPS).maker
    } else {
        sorted::sorted_book(random)
    }
}
