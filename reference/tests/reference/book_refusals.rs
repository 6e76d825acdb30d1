//! Refusals 1 to 6 but for 4, and the order among all of them. 28 has tests of
//! its own.

use crate::desk::buffer;
use leskofar_reference::book::{
    contents_place, kind, Section, BOOL, CONTENTS_SIZE, INT, NUMBER_SIZE,
};
use leskofar_reference::book_test;
use leskofar_reference::book_test::{MOST_DEPTH, SCRATCH_SIZE};
use leskofar_reference::filled_books::filled_up;
use leskofar_reference::maker::{sample, Maker};
use leskofar_reference::refusal::{BAD_NAME, CONTENTS, COUNT, DEPTH, FIELD, FOREST, SCRATCH_SHORT};

/// A book with each kind of record and term.
pub fn full() -> Maker {
    let mut m = Maker::default();
    let typ = m.user_type("T");
    let [c, d] = [m.constant("c", typ), m.constant("d", INT)];
    let f = m.function("f", &[typ, INT], BOOL);
    let boolean = m.boolean(true);
    let integer = m.integer(-1);
    let literal = m.literal("l", typ);
    let id = m.id(c);
    let built_in = m.built_in("op", &[boolean, integer]);
    let applied = m.apply(f, &[literal, id]);
    let guard = m.boolean(false);
    let ite = m.if_then_else(guard, built_in, applied);
    let rhs = m.integer(7);
    let bound = m.let_expr(d, rhs, ite);
    let hint = m.id(d);
    let pattern = m.pattern(&[hint]);
    let quantifier = m.quantifier(true, &[c, d], &[pattern], bound);
    let axiom = m.axiom(Some(quantifier), &[f]);
    m.explained_by(f, &[axiom]);
    for parent in 0..3 {
        let term = m.boolean(true);
        m.traced_context(parent, term, "t");
    }
    m
}

fn tested(book: &[u8]) -> Result<(), u32> {
    let mut scratch = buffer(SCRATCH_SIZE);
    let answer = book_test(book, &mut scratch);
    assert!(scratch.iter().all(|byte| *byte == 0));
    answer
}

/// The full book with one change.
pub fn changed(change: impl FnOnce(&mut Maker)) -> Result<(), u32> {
    let mut maker = full();
    change(&mut maker);
    tested(&maker.book())
}

/// A book for each of the refusals 2 to 6 and 28: the full one with a fault.
pub fn faulty() -> [(Vec<u8>, u32); 6] {
    let with = |fault: &dyn Fn(&mut Maker)| {
        let mut maker = full();
        fault(&mut maker);
        maker.book()
    };
    let mut longer = full().book();
    longer.push(0);
    [
        (longer, CONTENTS),
        (
            with(&|m| m.lists.resize(Section::Lists.most() + 1, 0)),
            COUNT,
        ),
        (with(&|m| m.letters.push(b'\n')), FIELD),
        (with(&|m| m.contexts[0][1] = m.contexts[1][1]), FOREST),
        (with(&chain(MOST_DEPTH + 1)), DEPTH),
        (with(&nameless), BAD_NAME),
    ]
}

/// A type that nothing uses and that cannot be sent.
fn nameless(m: &mut Maker) {
    m.user_type("");
}

fn put(book: &mut [u8], at: usize, number: u32) {
    book[at..at + NUMBER_SIZE].copy_from_slice(&number.to_le_bytes());
}

/// The place of the term of a kind in the full book.
pub fn of_kind(m: &Maker, kind: u32) -> usize {
    let is_kind = |term: &[u32; 7]| term[0] == kind;
    m.terms.iter().position(is_kind).expect("a full book")
}

#[test]
fn good_books_pass() {
    assert_eq!(changed(|_| ()), Ok(()));
    assert_eq!(tested(&sample().maker.book()), Ok(()));
    assert_eq!(tested(&Maker::default().book()), Ok(()));
    assert_eq!(Maker::default().book().len(), CONTENTS_SIZE);
}

#[test]
fn one_is_for_a_short_scratch_and_comes_first() {
    for book in [full().book(), vec![]] {
        let mut scratch = buffer(SCRATCH_SIZE - 1);
        assert_eq!(book_test(&book, &mut scratch), Err(SCRATCH_SHORT));
        assert_eq!(scratch, buffer(SCRATCH_SIZE - 1));
    }
    let mut longer = buffer(SCRATCH_SIZE * 2);
    assert_eq!(book_test(&[], &mut longer), Err(CONTENTS));
    assert_eq!(longer, vec![0; SCRATCH_SIZE * 2]);
}

#[test]
fn two_is_for_contents_not_as_laid_out() {
    let empty = Maker::default().book();
    assert_eq!(tested(&[]), Err(CONTENTS));
    assert_eq!(tested(&empty[..CONTENTS_SIZE - 1]), Err(CONTENTS));
    let book = full().book();
    assert_eq!(tested(&book[..book.len() - 1]), Err(CONTENTS));
    assert_eq!(tested(&[&book[..], &[0]].concat()), Err(CONTENTS));
    for section in Section::ALL {
        for (book, wrong) in [(&book, 0), (&empty, 0), (&empty, CONTENTS_SIZE as u32 + 1)] {
            let mut moved = book.clone();
            put(&mut moved, contents_place(section), wrong);
            assert_eq!(tested(&moved), Err(CONTENTS));
        }
    }
}

#[test]
fn two_is_for_a_table_that_closes_modulo_two_to_the_32() {
    let book = full().book();
    for section in &Section::ALL[Section::Names as usize..] {
        let at = contents_place(*section) + NUMBER_SIZE;
        let count = leskofar_reference::book::number_at(&book, at);
        let wrapping = (1u64 << 32) / 4;
        assert_eq!(wrapping * section.record_size() as u64 % (1 << 32), 0);
        let mut wrapped = book.clone();
        put(&mut wrapped, at, count + wrapping as u32);
        assert_eq!(tested(&wrapped), Err(CONTENTS));
    }
}

/// A book with `extra` records more than the limit in a section, all valid
/// but for their number.
fn filled(section: Section, extra: usize) -> Maker {
    let mut m = Maker::default();
    m.name("n");
    filled_up(m, section, section.most() + extra)
}

#[test]
fn three_is_for_counts_over_their_limits() {
    for section in Section::ALL {
        assert_eq!(tested(&filled(section, 0).book()), Ok(()), "{section:?}");
        assert_eq!(tested(&filled(section, 1).book()), Err(COUNT));
        // Without the body it is the contents that are wrong.
        let mut absent = full().book();
        put(
            &mut absent,
            contents_place(section) + NUMBER_SIZE,
            section.most() as u32 + 1,
        );
        assert_eq!(tested(&absent), Err(CONTENTS));
    }
}

#[test]
fn five_is_for_children_and_second_references() {
    let m = full();
    let ite = of_kind(&m, kind::IF_THEN_ELSE);
    let [_, guard, thn, ..] = m.terms[ite];
    assert_eq!(changed(|m| m.terms[ite][1] = ite as u32), Err(FOREST));
    assert_eq!(changed(|m| m.terms[ite][1] = ite as u32 + 1), Err(FOREST));
    assert_eq!(changed(|m| m.terms[ite][1] = thn), Err(FOREST));
    assert_eq!(changed(|m| m.contexts[0][1] = guard), Err(FOREST));
    assert_eq!(
        changed(|m| m.contexts[0][1] = m.contexts[1][1]),
        Err(FOREST)
    );
    assert_eq!(changed(|m| m.axioms[0][0] = m.contexts[1][1]), Err(FOREST));
    assert_eq!(changed(|m| m.axioms.push(m.axioms[0])), Err(FOREST));
    let built_in = of_kind(&m, kind::BUILT_IN);
    assert_eq!(changed(|m| m.terms.push(m.terms[built_in])), Err(FOREST));
    // A child that nothing else refers to, but not smaller.
    for later in [0, 1] {
        let itself = |m: &mut Maker| {
            let own = m.terms.len() as u32;
            m.built_in("not", &[own + later]);
            m.boolean(true);
        };
        assert_eq!(changed(itself), Err(FOREST));
    }
}

#[test]
fn five_counts_patterns_by_their_listings() {
    let with_quantifiers = |listings: &[&[u32]], terms: bool| {
        changed(|m| {
            let unbound: Vec<u32> = listings.iter().map(|_| m.boolean(true)).collect();
            let hint = m.boolean(true);
            let hints: &[u32] = if terms { &[hint] } else { &[] };
            let pattern = m.pattern(hints);
            for (body, listing) in unbound.iter().zip(listings) {
                let listing: Vec<u32> = listing.iter().map(|_| pattern).collect();
                m.quantifier(true, &[], &listing, *body);
            }
        })
    };
    assert_eq!(with_quantifiers(&[&[0]], true), Ok(()));
    assert_eq!(with_quantifiers(&[&[0, 0]], true), Err(FOREST));
    assert_eq!(with_quantifiers(&[&[0], &[0]], true), Err(FOREST));
    assert_eq!(with_quantifiers(&[&[0, 0], &[0]], false), Ok(()));
    // Unlisted patterns refer to nothing and have no parent.
    let all = |m: &mut Maker| {
        let terms: Vec<u32> = (0..m.terms.len() as u32).collect();
        m.pattern(&terms);
        m.pattern(&terms);
    };
    assert_eq!(changed(all), Ok(()));
    // A listed pattern's term is smaller than its quantifier.
    let late = |m: &mut Maker| {
        let body = m.boolean(true);
        let pattern = m.pattern(&[body + 2]);
        m.quantifier(true, &[], &[pattern], body);
        m.boolean(true);
    };
    assert_eq!(changed(late), Err(FOREST));
}

fn chain(depth: usize) -> impl Fn(&mut Maker) {
    move |m| {
        let mut node = 0;
        for _ in 0..depth {
            let term = m.boolean(true);
            node = m.context(node, term);
        }
    }
}

#[test]
fn six_is_for_depth() {
    for depth in [64, 65, 256, 399, 400] {
        assert_eq!(changed(chain(depth)), Ok(()));
    }
    let room = Section::Contexts.most() - full().contexts.len();
    for depth in [401, 402, room] {
        assert_eq!(changed(chain(depth)), Err(DEPTH));
    }
    // Wherever the node stands.
    let amid_others = |m: &mut Maker| {
        chain(MOST_DEPTH + 1)(m);
        let term = m.boolean(true);
        m.context(0, term);
    };
    assert_eq!(changed(amid_others), Err(DEPTH));
}

#[test]
fn each_number_is_decided_before_the_next() {
    // 5 in the first terms and 6 in the nodes lose to 4 in the last context.
    let faults = |m: &mut Maker| {
        chain(MOST_DEPTH + 1)(m);
        let first = m.boolean(true);
        m.terms
            .push([kind::IF_THEN_ELSE, first, first, first, 0, 0, 0]);
    };
    let twice = |m: &mut Maker| m.contexts[0][1] = m.contexts[1][1];
    let last = |m: &mut Maker| {
        let last = m.contexts.len() - 1;
        m.contexts[last][2] = u32::MAX;
    };
    let over = |m: &mut Maker| m.lists.resize(Section::Lists.most() + 1, 0);
    assert_eq!(changed(faults), Err(FOREST));
    let four = |m: &mut Maker| {
        faults(m);
        twice(m);
        last(m);
    };
    assert_eq!(changed(four), Err(FIELD));
    let three = |m: &mut Maker| {
        four(m);
        over(m);
    };
    assert_eq!(changed(three), Err(COUNT));
    let mut maker = full();
    three(&mut maker);
    let mut book = maker.book();
    book.push(0);
    assert_eq!(tested(&book), Err(CONTENTS));
    let mut scratch = [];
    assert_eq!(book_test(&book, &mut scratch), Err(SCRATCH_SHORT));
}
