//! Names as symbols, against the reference: every border of what a symbol is, in
//! every place, in buffers of just the text and one less; and refusal 28 with
//! every call.

use crate::calls::{Call, Given, Measure};
use crate::listing::compare_each;
use crate::made_symbols::{
    each_letter, literals, longest_names, named, reserved_and_near, shared, Named, BARRED, ROLES,
};
use crate::print_call::{Print, FLAGS, ONE_LINE};
use crate::printing::compare_trace;
use crate::scratch_bytes::LEAST;
use crate::scratch_calls::Lent;
use crate::scratch_cases::{plain_calls, stage, stage_calls};
use crate::strict_prints::Prints;
use crate::tally::{Met, Tally};
use leskofar_reference::audit::SCRIPT_MOST;
use leskofar_reference::book::INT;
use leskofar_reference::book_test::{check, SCRATCH_SIZE};
use leskofar_reference::fresh_image;
use leskofar_reference::maker::Maker;
use leskofar_reference::name_faults::{all_ways, may_be_declared, ways_of};
use leskofar_reference::random::Random;
use leskofar_reference::random_books::{any_random_book, Counts};
use leskofar_reference::refusal::{BAD_NAME, COUNT, TOO_LONG};
use std::collections::BTreeSet;

const SEED: u64 = 0x7379_6D62;
const NODE: u32 = 1;
const RANDOM_BOOKS: usize = 10_000;
/// Sizes of random books; the larger ones have bad names of every sort.
const SIZES: [usize; 4] = [2, 4, 12, 40];
/// Where of so many random books less pass, they are too often 28.
const MOSTLY: usize = 4;

/// Every call on a book that is refused.
fn all_refused(m: &Maker, met: &mut Met) -> Result<(), String> {
    let book = m.book();
    for call in plain_calls() {
        let refusal = call.compare(&book, &LEAST, true)?;
        met.add(refusal);
        if refusal != BAD_NAME {
            return Err(format!("{} {refusal}, {book:?}", call.name()));
        }
    }
    Ok(())
}

/// A call with a buffer of just its text, one less and one more.
fn in_rooms(call: &Call, book: &[u8], measure: &mut Measure, met: &mut Met) -> Result<(), String> {
    let image = &fresh_image();
    let (length, _) = measure.lengths(call, book, image);
    for (text, known) in [(length - 1, TOO_LONG), (length, 0), (length + 1, 0)] {
        let left = call.compare(&Given {
            book,
            image,
            scratch: &LEAST,
            text,
            reason: 0,
        })?;
        met.add(left.answer.refusal);
        if left.answer.refusal != known {
            return Err(format!("{:?} in {text} bytes, {book:?}", left.answer));
        }
    }
    Ok(())
}

/// Every text of a book: moves, questions, prints, listing and trace.
fn all_texts(m: &Maker, goal: u32, measure: &mut Measure, met: &mut Met) -> Result<(), String> {
    let book = &m.book();
    let program = check(book).map_err(|refusal| format!("refused {refusal}, {book:?}"))?;
    for call in [
        Call::Move { node: NODE },
        Call::Ask { node: NODE, goal },
        Call::Ask { node: 0, goal },
    ] {
        in_rooms(&call, book, measure, met)?;
    }
    let mut prints = Prints::new(book, &program)?;
    let [_, premise, _] = m.contexts[0];
    for term in [premise, goal] {
        for newlines in [ONE_LINE, FLAGS[0]] {
            let call = Print {
                book,
                term,
                tag: 0,
                newlines,
                indent: 0,
            };
            call.compare_around(call.length(&program), 0, met, &mut prints)?;
        }
    }
    compare_each(m, [0, NODE], [goal], met)?;
    let mut whole = vec![0; book.len()];
    let traced = leskofar_reference::trace(book, &mut [0; SCRATCH_SIZE], NODE, &mut whole);
    let length = traced.map_err(|refusal| format!("trace {refusal}"))?;
    for room in [length.saturating_sub(1), length] {
        compare_trace(book, NODE, room, &LEAST, met)?;
    }
    Ok(())
}

/// A book is good exactly if its name is.
fn compare_named(
    name: &str,
    Named { maker, goal }: &Named,
    measure: &mut Measure,
    met: &mut Met,
) -> Result<(), String> {
    if may_be_declared(name) {
        all_texts(maker, *goal, measure, met)
    } else {
        all_refused(maker, met)
    }
}

/// Names in each role alone, and in all of them.
fn compare_names(names: impl IntoIterator<Item = String>, met: &mut Met) -> Result<(), String> {
    let mut measure = Measure::new();
    for name in names {
        for role in ROLES {
            compare_named(&name, &named(role, &name), &mut measure, met)?;
        }
        compare_named(&name, &shared(&name), &mut measure, met)?;
    }
    Ok(())
}

fn name_groups(tally: &mut Tally) {
    tally.group("symbols, each printable letter alone", || {
        let mut met = Met::default();
        compare_names(each_letter(), &mut met)?;
        met.only(&[0, TOO_LONG, BAD_NAME])
    });
    tally.group("symbols, reserved words and what is near them", || {
        let mut met = Met::default();
        compare_names(reserved_and_near(), &mut met)?;
        met.only(&[0, TOO_LONG, BAD_NAME])
    });
    tally.group("symbols, bars and backslashes in every place", || {
        let mut met = Met::default();
        compare_names(BARRED.map(String::from), &mut met)?;
        met.only(&[0, TOO_LONG, BAD_NAME])
    });
    tally.group("symbols, as long as a book can have", || {
        let mut met = Met::default();
        let mut measure = Measure::new();
        for name in longest_names() {
            compare_named(&name, &shared(&name), &mut measure, &mut met)?;
        }
        met.only(&[0, TOO_LONG, BAD_NAME])
    });
    tally.group("symbols, literals of every text and type", || {
        let mut met = Met::default();
        let mut measure = Measure::new();
        for (m, is_good) in literals() {
            if is_good {
                let goal = m.terms.len() as u32 - 1;
                all_texts(&m, goal, &mut measure, &mut met)?;
            } else {
                all_refused(&m, &mut met)?;
            }
        }
        met.only(&[0, TOO_LONG, BAD_NAME])
    });
}

/// What is told of a book with a bad name behind which all else is wrong. The
/// audit's script has its 3 before, a list of nodes has it behind.
fn known(call: &Lent) -> u32 {
    match call {
        Lent::Audit(_, script) if script.len() > SCRIPT_MOST => COUNT,
        _ => BAD_NAME,
    }
}

fn order_group(tally: &mut Tally) {
    tally.group("symbols, 28 before all that comes behind it", || {
        let mut met = Met::default();
        let stage = stage();
        let mut m = stage.maker.clone();
        m.constant("", INT);
        let book = m.book();
        for call in stage_calls(&stage)? {
            for has_room in [true, false] {
                let refusal = call.compare(&book, &LEAST, has_room)?;
                met.add(refusal);
                if refusal != known(&call) {
                    return Err(format!("{refusal} of {call:?}"));
                }
            }
        }
        met.only(&[BAD_NAME, COUNT])
    });
}

fn random_group(tally: &mut Tally) {
    let books = tally.share(RANDOM_BOOKS);
    tally.group("symbols, random books, most of which pass", || {
        let mut met = Met::default();
        let mut ways = BTreeSet::new();
        let mut refused = 0;
        let mut random = Random::new(SEED);
        for _ in 0..books {
            let size = random.pick(&SIZES);
            let counts = Counts::random(&mut random, size);
            let m = any_random_book(&mut random, counts);
            let book = m.book();
            let bad = ways_of(&m);
            for call in plain_calls() {
                let refusal = call.compare(&book, &LEAST, true)?;
                met.add(refusal);
                if (refusal == BAD_NAME) != !bad.is_empty() && !matches!(call, Lent::Grow(_)) {
                    return Err(format!("{} {refusal}, {bad:?}, {book:?}", call.name()));
                }
            }
            refused += usize::from(!bad.is_empty());
            ways.extend(bad);
        }
        let missed: Vec<_> = all_ways().difference(&ways).copied().collect();
        if !missed.is_empty() {
            return Err(format!("never met: {missed:?}"));
        }
        if refused > books / MOSTLY {
            return Err(format!("{refused} of {books} are 28"));
        }
        let said = met.all_of(&[0, BAD_NAME])?;
        Ok(format!("{refused} of {books} books are 28, {said}"))
    });
}

pub fn run(tally: &mut Tally) {
    name_groups(tally);
    order_group(tally);
    random_group(tally);
}
