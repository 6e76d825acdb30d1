//! Session calls on books of literals whose whole names are alike, or nearly,
//! made and random, against the reference.

use crate::calls::{Call, Given, Measure};
use crate::lists::List;
use crate::literal_books::literal_book;
use crate::literal_shapes::{
    visit, DECLARED, FOUND_HIGHER, FOUND_LAST, FOUND_LOWER, IS_TAG, OTHER_PLACE, OTHER_SPLIT,
    OTHER_TYPE, SAME_PLACE,
};
use crate::literal_tours::{failed, go, proved, refuted, Tour};
use crate::made_costly::alike;
use crate::made_names::{
    begins_or_ends, border_letters, nearly_one_text, nearly_one_type, overlapping_names, with_byte,
    LONGEST, STEP,
};
use crate::made_splits::{
    each_letter_changed, long_parts, several_colons, two_colons, types_called_as_built_in,
    types_of_one_name, SPLIT_LETTERS,
};
use crate::scratch_bytes::LEAST;
use crate::seen::{Seen, RESULTS};
use crate::tally::{Met, Tally};
use leskofar_reference::book::Section;
use leskofar_reference::book_test::{check, FIRST_LETTER, LAST_LETTER};
use leskofar_reference::fresh_image;
use leskofar_reference::image::{Kind, Session};
use leskofar_reference::maker::Maker;
use leskofar_reference::random::Random;
use leskofar_reference::refusal::FIELD;

const SEED: u64 = 0x6C69_7465;
/// Random books, and the most calls on one.
const BOOKS: usize = 3_000;
const CALLS: usize = 10;
/// The most letters of each part, and letters between two colons.
const PART: usize = 20;
const BETWEEN: [usize; 9] = [0, 1, 6, 7, 8, 9, 15, 16, 20];
/// Long names that differ late, and their letters.
const LONG_NAMES: usize = 20;
const LONG_LETTERS: usize = 1_000;
/// Bytes that are no letters.
const NO_LETTERS: [u8; 6] = [0x00, 0x0A, FIRST_LETTER - 1, LAST_LETTER + 1, 0x80, 0xFF];

/// To the nodes of a book with its literals in two orders, and questions of
/// both terms.
fn both_orders(m: &Maker) -> Vec<Call> {
    let [first, second] = [0, 1].map(|node| m.contexts[node][1]);
    [
        go(1),
        proved(1, second),
        go(2),
        refuted(2, first),
        go(0),
        failed(0, second),
    ]
    .concat()
}

/// Fails unless so many literals of node 1 are found and the others declared.
fn finds(tour: &mut Tour, m: &Maker, found: usize) -> Result<(), String> {
    let [_, premise, _] = m.contexts[0];
    let [_, _, _, literals, ..] = m.terms[premise as usize];
    let declared = tour.on(m, &both_orders(m))?[0];
    if declared + found == literals as usize {
        Ok(())
    } else {
        Err(format!(
            "{declared} of {literals} declared, not {found} found"
        ))
    }
}

fn letter_groups(tally: &mut Tally) {
    tally.group("session, literals that differ in one letter", || {
        let mut tour = Tour::new();
        for offset in 0..STEP {
            for length in 0..=LONGEST {
                finds(&mut tour, &nearly_one_text(length, offset), 1)?;
            }
        }
        // Of no letters, both stand at one place.
        tour.only(&[DECLARED, FOUND_LOWER, SAME_PLACE, OTHER_PLACE])
    });
    tally.group(
        "session, literals of types that differ in one letter",
        || {
            let mut tour = Tour::new();
            for offset in 0..STEP {
                // A type has a name.
                for length in 1..=LONGEST {
                    finds(&mut tour, &nearly_one_type(length, offset), 1)?;
                }
            }
            tour.only(&[DECLARED, FOUND_LOWER, OTHER_TYPE])
        },
    );
}

fn length_groups(tally: &mut Tally) {
    tally.group("session, literals that begin or end alike", || {
        let mut tour = Tour::new();
        for offset in 0..STEP {
            for (ends, of_types) in [(false, false), (false, true), (true, false), (true, true)] {
                finds(&mut tour, &begins_or_ends(ends, of_types, offset), 0)?;
            }
        }
        tour.only(&[DECLARED])
    });
    tally.group("session, long literals that differ late", || {
        let mut tour = Tour::new();
        let mut m = alike(LONG_LETTERS, LONG_NAMES);
        let premise = m.terms.len() as u32 - 1;
        m.context(0, premise);
        tour.on(
            &m,
            &[go(1), proved(1, premise), failed(0, premise)].concat(),
        )?;
        tour.only(&[DECLARED])
    });
}

fn place_groups(tally: &mut Tally) {
    tally.group("session, literals whose names overlap", || {
        let mut tour = Tour::new();
        for period in 1..=STEP + 1 {
            let m = overlapping_names(period);
            tour.on(&m, &both_orders(&m))?;
        }
        tour.only(&[DECLARED, FOUND_LOWER, OTHER_PLACE])
    });
    tally.group("session, letters at the borders in literals", || {
        let mut tour = Tour::new();
        finds(&mut tour, &border_letters(), 0)?;
        let mut met = Met::default();
        for byte in NO_LETTERS {
            for place in 0..LONGEST {
                let book = with_byte(byte, place).book();
                for call in [Call::Move { node: 1 }, Call::Ask { node: 0, goal: 0 }] {
                    met.add(refused(&call, &book)?);
                }
            }
        }
        let refused = met.only(&[FIELD])?;
        Ok(format!("{}, refused: {refused}", tour.only(&[DECLARED])?))
    });
}

/// The refusal of a call on a fresh session.
fn refused(call: &Call, book: &[u8]) -> Result<u32, String> {
    let left = call.compare(&Given {
        book,
        image: &fresh_image(),
        scratch: &LEAST,
        text: LONG_LETTERS,
        reason: 0,
    })?;
    Ok(left.answer.refusal)
}

fn split_groups(tally: &mut Tally) {
    tally.group("session, literals of one text by two splits", || {
        let mut tour = Tour::new();
        for between in BETWEEN {
            for behind in 1..=PART {
                // By the second split each text, with a part changed too.
                let parts = 2 + usize::from(between > 0);
                let found = (PART + 1) * parts + PART;
                finds(&mut tour, &two_colons(PART, between, behind), found)?;
            }
        }
        tour.only(&[DECLARED, FOUND_LOWER, OTHER_SPLIT])
    });
    tally.group("session, two splits with each letter changed", || {
        let mut tour = Tour::new();
        // Behind the second colon stands a type, which has a name.
        for second in 1..SPLIT_LETTERS - 1 {
            for first in 0..second {
                // By the second split each text but the two that lack a colon.
                let found = SPLIT_LETTERS - 1;
                finds(&mut tour, &each_letter_changed(first, second), found)?;
            }
        }
        tour.only(&[DECLARED, FOUND_LOWER, OTHER_SPLIT])
    });
    tally.group("session, several colons and long parts", || {
        let mut tour = Tour::new();
        for m in [several_colons(), long_parts()] {
            tour.on(&m, &both_orders(&m))?;
        }
        tour.only(&[DECLARED, FOUND_LOWER, OTHER_SPLIT])
    });
    tally.group("session, literals of types of one name", || {
        let mut tour = Tour::new();
        let most = Section::Types.most();
        for m in [types_of_one_name(most), types_called_as_built_in()] {
            tour.on(&m, &both_orders(&m))?;
        }
        tour.only(&[DECLARED, FOUND_LOWER, OTHER_SPLIT, OTHER_TYPE])
    });
}

/// A list of random calls, what its literals meet, and the image it leaves.
fn random_list(
    random: &mut Random,
    other: &[u8],
    measure: &mut Measure,
    seen: &mut Seen,
    shapes: &mut Met<&'static str>,
) -> Result<Vec<u8>, String> {
    let m = literal_book(random);
    let book = m.book();
    let program = check(&book).map_err(|refusal| format!("refused {refusal}"))?;
    let mut list = List::new(&m)?;
    for _ in 0..=random.below(CALLS) {
        list.random_step(random, other, measure, seen)?;
        let session = Session::read(Kind::Wide, list.image()).ok_or("no session")?;
        let node = session.node as usize;
        visit(&program, node, list.image(), &mut |shape| shapes.add(shape));
    }
    Ok(list.image().to_vec())
}

fn random_group(tally: &mut Tally) {
    let books = tally.share(BOOKS);
    tally.group("session, random literals of few letters", || {
        let mut seen = Seen::default();
        let mut shapes = Met::default();
        let mut measure = Measure::new();
        let mut random = Random::new(SEED);
        let mut other = fresh_image().to_vec();
        for _ in 0..books {
            other = random_list(&mut random, &other, &mut measure, &mut seen, &mut shapes)?;
        }
        let results = seen.results.all_of(&RESULTS)?;
        let shapes = shapes.only(&[
            IS_TAG,
            DECLARED,
            FOUND_LOWER,
            FOUND_HIGHER,
            FOUND_LAST,
            SAME_PLACE,
            OTHER_PLACE,
            OTHER_SPLIT,
            OTHER_TYPE,
        ])?;
        Ok(format!("{books} books, accepted: {results}, met: {shapes}"))
    });
}

pub fn run(tally: &mut Tally) {
    letter_groups(tally);
    length_groups(tally);
    place_groups(tally);
    split_groups(tally);
    random_group(tally);
}
