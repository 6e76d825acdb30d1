//! Books for growths: with records enough that every call is accepted, and
//! filled up to a count of one section.

use crate::made_books::chain;
use crate::session_books::session_book;
use leskofar_reference::book::{Section, INT};
use leskofar_reference::book_test::MOST_DEPTH;
use leskofar_reference::filled_books::filled_up;
use leskofar_reference::maker::Maker;
use leskofar_reference::name_faults::declarable_name;
use leskofar_reference::random::{Random, HARDLY_EVER, OFTEN};
use leskofar_reference::random_books::{random_book, Counts};

/// The usual sizes of random books, and a rare one.
const SIZES: [usize; 5] = [0, 1, 2, 4, 8];
const LARGE: usize = 60;
/// The most terms that are made free, and records that a section lacks, which
/// is less than so many.
const FREE: usize = 4;
const LACKING: usize = 4;

/// A chain that is as deep as it may be, with a term that nothing refers to.
pub fn deepest() -> Maker {
    let mut m = chain(MOST_DEPTH);
    m.constant("c", INT);
    m.boolean(true);
    m
}

/// A random good book, with some terms that nothing refers to, at times
/// full or nearly so in one section.
pub fn growing_book(random: &mut Random) -> Maker {
    let mut m = if random.one_in(OFTEN) {
        session_book(random)
    } else {
        let is_large = random.one_in(HARDLY_EVER);
        let size = if is_large { LARGE } else { random.pick(&SIZES) };
        let counts = Counts::random(random, size);
        random_book(random, counts)
    };
    for _ in 0..random.up_to(FREE) {
        m.boolean(true);
    }
    let section = random.pick(&Section::ALL);
    // A context takes a term.
    let has_room = m.terms.len() + Section::Contexts.most() <= Section::Terms.most();
    let count = section.most() - random.below(LACKING);
    let fits = m.count(section) <= count && (section != Section::Contexts || has_room);
    if random.one_in(OFTEN) && fits && declarable_name(&m).is_some() {
        m = filled_up(m, section, count);
    }
    m
}
