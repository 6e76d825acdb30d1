//! Listings as deep and as long as a book allows.

use crate::listing::{checked, compare_each, Listing};
use crate::made_costly::{longest, overlapping};
use crate::made_terms::{long_names, nests, path_of};
use crate::printed::{rooms_around, LONGEST};
use crate::scratch_bytes::LEAST;
use crate::tally::{Met, Tally};
use leskofar_reference::book::Section;
use leskofar_reference::book_test::MOST_DEPTH;
use leskofar_reference::maker::Maker;

/// Entries that all ranges share, of a text that is still written.
const WRITTEN_ENTRIES: usize = 512;
/// A length that a count of 32 bits takes for 0.
const WRAPPED: u64 = 1 << 32;
/// Letters of names.
const LETTERS: [usize; 4] = [1, 2, 255, Section::Letters.most()];
const SHORT: [usize; 2] = [1, 3];

/// The last term as the goal, at the root and at the last node.
fn compare_last(m: &Maker, met: &mut Met) -> Result<(), String> {
    let [node, terms] = [m.contexts.len(), m.terms.len()].map(|count| count as u32);
    compare_each(m, [0, node], [terms - 1], met)
}

/// The last term as the goal at the last node.
fn last<'b>(m: &Maker, book: &'b [u8]) -> Listing<'b> {
    Listing {
        book,
        node: m.contexts.len() as u32,
        goal: m.terms.len() as u32 - 1,
    }
}

/// A text a little longer than a count of 32 bits can tell, and buffers that
/// such a count would take for long enough.
fn compare_wrapped(met: &mut Met) -> Result<(), String> {
    let length = |letters: u64| {
        let m = longest(letters as usize, 1);
        let book = m.book();
        checked(&book).map(|program| last(&m, &book).length(&program))
    };
    let of_one = length(1)?;
    let of_a_letter = length(2)? - of_one;
    let letters = 1 + (WRAPPED - of_one).div_ceil(of_a_letter);
    let rest = length(letters)? - WRAPPED;
    if rest > LONGEST {
        return Err(format!("{rest} bytes more than a count of 32 bits tells"));
    }
    let m = longest(letters as usize, 1);
    let book = m.book();
    for room in rooms_around(rest, 0) {
        last(&m, &book).compare(room, &LEAST, met)?;
    }
    Ok(())
}

pub fn run(tally: &mut Tally) {
    tally.group("listing, as deep as a book can nest", || {
        let mut met = Met::default();
        for (name, mut m) in nests() {
            let last = m.terms.len() as u32 - 1;
            m.context(0, last);
            compare_last(&m, &mut met).map_err(|difference| format!("{name}: {difference}"))?;
        }
        for letters in SHORT {
            compare_last(
                &path_of(MOST_DEPTH, Section::Terms.most(), letters),
                &mut met,
            )?;
        }
        met.only(&[0, 10])
    });
    tally.group("listing, names as long as a book can have", || {
        let mut met = Met::default();
        for letters in LETTERS {
            let m = long_names(letters);
            let [nodes, goals] = [m.contexts.len(), m.terms.len()].map(|count| count as u32);
            compare_each(&m, 0..=nodes, 0..goals, &mut met)?;
        }
        met.only(&[0, 10])
    });
    tally.group("listing, ranges that overlap, written", || {
        let mut met = Met::default();
        compare_last(&overlapping(WRITTEN_ENTRIES), &mut met)?;
        met.only(&[0, 10])
    });
    tally.group("listing, texts that can only be counted", || {
        let mut met = Met::default();
        for m in [
            overlapping(Section::Lists.most()),
            // One node: the text has every quantifier twice, and cannot be longer.
            longest(Section::Letters.most(), 1),
            longest(Section::Letters.most(), MOST_DEPTH),
        ] {
            compare_last(&m, &mut met)?;
        }
        compare_wrapped(&mut met)?;
        met.only(&[10])
    });
}
