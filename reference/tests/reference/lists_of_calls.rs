//! Random lists of calls, each held to demand 3, on books that stay and on
//! books that grow.

use crate::demand_three::Run;
use crate::writer::records;
use crate::writer_desk::grown;
use crate::writer_random::growth;
use leskofar_reference::book_test::check;
use leskofar_reference::program::Program;
use leskofar_reference::random::Random;
use leskofar_reference::random_books::{random_book, Counts};
use std::collections::BTreeMap;

const SEED: u64 = 513;
/// Sizes of books, the number of lists, the calls in each, and the buffers.
const RUNS: [(usize, usize, usize, usize); 5] = [
    (1, 1_500, 12, 1 << 12),
    (3, 1_500, 20, 1 << 12),
    (12, 1_500, 24, 1 << 14),
    (60, 100, 30, 1 << 18),
    (400, 10, 30, 1 << 22),
];
const LISTS_AT_LIMITS: usize = 6;
const CALLS_AT_LIMITS: usize = 20;
const BUFFERS_AT_LIMITS: usize = 1 << 22;
/// Sizes of books that grow, and how many there are of each; the most growths
/// of one, and calls between two of them.
const GROWING: [(usize, usize); 3] = [(1, 300), (4, 600), (12, 300)];
const GROWING_BUFFERS: usize = 1 << 16;
const GROWTHS: usize = 12;
const CALLS_BETWEEN: usize = 3;

/// Runs a list on a book and those that it grows to, and adds up its answers.
/// Gives how often the book grew while a reply, and while a model was owed.
fn run_list(
    random: &mut Random,
    books: &[Vec<u8>],
    calls: usize,
    buffers: usize,
    sum: &mut BTreeMap<u32, usize>,
) -> [usize; 2] {
    let passed = |book| check(book).expect("random books pass");
    let programs: Vec<Program> = books.iter().map(|book| passed(book)).collect();
    let mut run = Run::new(&books[0], &programs[0]);
    for _ in 0..calls {
        run.call(random, buffers);
    }
    for (program, book) in programs.iter().zip(books).skip(1) {
        run.go_on(book, program);
        for _ in 0..random.up_to(CALLS_BETWEEN) {
            run.call(random, buffers);
        }
    }
    for (answer, times) in run.answers {
        *sum.entry(answer).or_default() += times;
    }
    run.grew_while_owed
}

/// A random book, and the books that some growths make of it.
fn growing(random: &mut Random, counts: Counts) -> Vec<Vec<u8>> {
    let mut m = random_book(random, counts);
    let mut books = vec![m.book()];
    for _ in 0..GROWTHS {
        let last = &books[books.len() - 1];
        if let Ok((_, book)) = grown(last, &growth(random, &m)) {
            m = records(&book);
            books.push(book);
        }
    }
    books
}

#[test]
fn random_lists_of_calls() {
    let mut random = Random::new(SEED);
    let mut answers = BTreeMap::new();
    for (size, lists, calls, buffers) in RUNS {
        for _ in 0..lists {
            let counts = Counts::random(&mut random, size);
            let book = random_book(&mut random, counts).book();
            run_list(&mut random, &[book], calls, buffers, &mut answers);
        }
    }
    // 20 never comes; every other number that such lists can have does.
    let met: Vec<u32> = answers.keys().copied().collect();
    assert_eq!(met, [0, 7, 8, 9, 10, 21, 22, 23], "{answers:?}");
    assert!(answers.values().all(|times| *times > 100), "{answers:?}");
}

#[test]
fn lists_of_calls_on_books_at_every_limit() {
    let mut random = Random::new(SEED);
    let mut answers = BTreeMap::new();
    for _ in 0..LISTS_AT_LIMITS {
        let book = random_book(&mut random, Counts::limits()).book();
        run_list(
            &mut random,
            &[book],
            CALLS_AT_LIMITS,
            BUFFERS_AT_LIMITS,
            &mut answers,
        );
    }
    assert!(answers[&0] > LISTS_AT_LIMITS, "{answers:?}");
}

/// The book grows at any moment, also while a reply or a model is owed.
#[test]
fn random_lists_of_calls_on_books_that_grow() {
    let mut random = Random::new(SEED);
    let mut answers = BTreeMap::new();
    let [mut growths, mut replies, mut models] = [0; 3];
    for (size, lists) in GROWING {
        for _ in 0..lists {
            let counts = Counts::random(&mut random, size);
            let books = growing(&mut random, counts);
            growths += books.len() - 1;
            let owed = run_list(&mut random, &books, 1, GROWING_BUFFERS, &mut answers);
            replies += owed[0];
            models += owed[1];
        }
    }
    let met: Vec<u32> = answers.keys().copied().collect();
    assert_eq!(met, [0, 7, 8, 9, 10, 21, 22, 23], "{answers:?}");
    assert!(growths > 2_000, "{growths}");
    assert!(replies > 100 && models > 100, "{replies} {models}");
}
