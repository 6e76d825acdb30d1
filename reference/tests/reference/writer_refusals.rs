//! The refusals of the writer's calls, and their order.

use crate::book_refusals::faulty;
use crate::desk::buffer;
use crate::writer_desk::{grown, refusal, Growth};
use leskofar_reference::book::{kind, Section, BOOL, INT};
use leskofar_reference::book_test::{FIRST_LETTER, LAST_LETTER, MOST_DEPTH, SCRATCH_SIZE};
use leskofar_reference::filled_books::tiny;
use leskofar_reference::maker::Maker;
use leskofar_reference::refusal::{
    COUNT, DEPTH, FIELD, FOREST, NOT_IN_BOOK, SCRATCH_SHORT, TOO_LONG,
};

pub const TRUE: [u32; 7] = [kind::BOOLEAN, 1, 0, 0, 0, 0, 0];

/// Each call with arguments that a book with a term, a constant and a name
/// takes.
pub fn each_call() -> [Growth; 8] {
    [
        Growth::name("n"),
        Growth::Constant([0, INT]),
        Growth::term(TRUE, [&[], &[]]),
        Growth::Node([0, 0, 0]),
        Growth::extend(0, 0, Some("t")),
        Growth::Equality([0, 0, 0]),
        Growth::record(0, 0, INT, Some("t")),
        Growth::trace_point(0, "t"),
    ]
}

#[test]
fn one_to_six_are_for_the_book_received() {
    for growth in each_call() {
        for (book, number) in faulty() {
            assert_eq!(refusal(&book, &growth), number);
        }
        for size in [0, 1, SCRATCH_SIZE - 1] {
            let [mut scratch, mut new_book] = [size, 1 << 12].map(buffer);
            let answer = growth.call(&tiny().book(), &mut scratch, &mut new_book);
            assert_eq!(answer, Err(SCRATCH_SHORT));
            assert_eq!([scratch, new_book], [size, 1 << 12].map(buffer));
        }
    }
    // They come before 7.
    for (book, number) in faulty() {
        assert_eq!(refusal(&book, &Growth::Node([u32::MAX; 3])), number);
    }
}

#[test]
fn seven_is_for_a_parent_or_term_outside_and_nothing_else() {
    let mut m = tiny();
    m.context(0, 0);
    let book = m.book();
    // The parent equal to the new node's own number is outside.
    for parent in [2, 3, 1 << 31, u32::MAX] {
        for growth in [
            Growth::Node([parent, 1, 0]),
            Growth::extend(parent, 1, None),
            Growth::Equality([parent, 0, 1]),
            Growth::record(parent, 1, INT, None),
            Growth::trace_point(parent, "t"),
        ] {
            assert_eq!(refusal(&book, &growth), NOT_IN_BOOK);
        }
    }
    // So is a term that the call itself would append.
    for term in [2, 3, 4, u32::MAX] {
        for growth in [
            Growth::Node([1, term, 0]),
            Growth::extend(1, term, None),
            Growth::Equality([1, 0, term]),
            Growth::record(1, term, INT, None),
        ] {
            assert_eq!(refusal(&book, &growth), NOT_IN_BOOK);
        }
    }
    assert!(grown(&book, &Growth::Node([1, 1, 0])).is_ok());
}

#[test]
fn seven_comes_before_all_of_the_new_book() {
    let mut m = tiny();
    for _ in 0..Section::Contexts.most() {
        let term = m.boolean(true);
        m.context(0, term);
    }
    m.names.resize(Section::Names.most(), [0, 1]);
    m.lists.resize(Section::Lists.most(), 0);
    let book = m.book();
    let [node, term] = [m.contexts.len(), m.terms.len()].map(|count| count as u32);
    for growth in [
        Growth::Node([node + 1, 0, u32::MAX]),
        Growth::extend(node + 1, 0, Some("\n")),
        Growth::Equality([node + 1, u32::MAX, 0]),
        Growth::record(0, term, u32::MAX, Some("\n")),
        Growth::trace_point(node + 1, "\n"),
    ] {
        assert_eq!(refusal(&book, &growth), NOT_IN_BOOK);
    }
}

/// Each growth is accepted; with one more at one of its numbers it is not.
#[test]
fn four_is_for_every_other_number_out_of_range() {
    let mut m = tiny();
    let typ = m.user_type("T");
    m.function("f", &[], INT);
    m.pattern(&[]);
    let book = m.book();
    let last = m.names.len() as u32 - 1;
    let term = |kind, field, lists| Growth::term([kind, field, 0, 0, 0, 0, 0], lists);
    let forall = |lists| Growth::term([kind::QUANTIFIER, 1, 0, 0, 0, 0, 1], lists);
    for (inside, outside) in [
        (
            Growth::Constant([last, typ]),
            Growth::Constant([last + 1, typ]),
        ),
        (Growth::Constant([0, typ]), Growth::Constant([0, typ + 1])),
        (
            Growth::Node([0, 1, last + 1]),
            Growth::Node([0, 1, last + 2]),
        ),
        (Growth::Equality([0, 0, 1]), Growth::Equality([0, 1, 1])),
        (
            Growth::record(0, 1, typ, None),
            Growth::record(0, 1, typ + 1, None),
        ),
        (term(0, 1, [&[], &[]]), term(0, 2, [&[], &[]])),
        (term(3, 0, [&[], &[]]), term(3, 1, [&[], &[]])),
        (term(4, last, [&[1], &[]]), term(4, last + 1, [&[1], &[]])),
        (term(5, 0, [&[1], &[]]), term(5, 1, [&[1], &[]])),
        (forall([&[0], &[0]]), forall([&[1], &[0]])),
        (forall([&[0], &[0]]), forall([&[0], &[1]])),
    ] {
        assert!(grown(&book, &inside).is_ok(), "{inside:?}");
        assert_eq!(refusal(&book, &outside), FIELD, "{outside:?}");
    }
}

#[test]
fn an_own_number_as_a_child_is_five_and_the_next_one_four() {
    let book = tiny().book();
    let own = 2;
    for (child, number) in [(own, FOREST), (own + 1, FIELD), (u32::MAX, FIELD)] {
        for growth in [
            Growth::term([kind::BUILT_IN, 0, 0, 0, 0, 0, 0], [&[child], &[]]),
            Growth::term([kind::IF_THEN_ELSE, 0, 1, child, 0, 0, 0], [&[], &[]]),
            Growth::term([kind::LET, 0, child, 1, 0, 0, 0], [&[], &[]]),
            Growth::term([kind::QUANTIFIER, 0, 0, 0, 0, 0, child], [&[], &[]]),
        ] {
            assert_eq!(refusal(&book, &growth), number);
        }
    }
}

#[test]
fn five_is_for_a_term_that_is_referred_to() {
    let mut m = tiny();
    m.built_in("not", &[0]);
    m.context(0, 1);
    let mut listed = m.clone();
    let pattern = listed.pattern(&[0]);
    for growth in [
        Growth::term([kind::BUILT_IN, 0, 0, 0, 0, 0, 0], [&[0], &[]]),
        Growth::term([kind::BUILT_IN, 0, 0, 0, 0, 0, 0], [&[2, 2], &[]]),
        Growth::Node([0, 1, 0]),
        Growth::extend(1, 0, None),
        Growth::Equality([1, 0, 1]),
        Growth::record(1, 0, INT, None),
    ] {
        assert_eq!(refusal(&m.book(), &growth), FOREST, "{growth:?}");
    }
    // A pattern's terms are in use once a quantifier lists it.
    let listing = Growth::term([kind::QUANTIFIER, 0, 0, 0, 0, 0, 2], [&[], &[pattern]]);
    assert_eq!(refusal(&listed.book(), &listing), FOREST);
    // Where they are not, it may be listed, once.
    let mut free = tiny();
    let pattern = free.pattern(&[0]);
    let once = Growth::term([8, 0, 0, 0, 0, 0, 1], [&[], &[pattern]]);
    let twice = Growth::term([8, 0, 0, 0, 0, 0, 1], [&[], &[pattern, pattern]]);
    assert!(grown(&free.book(), &once).is_ok());
    assert_eq!(refusal(&free.book(), &twice), FOREST);
}

#[test]
fn letters_of_names_and_traces() {
    let mut m = tiny();
    m.context(0, 0);
    let book = m.book();
    for (letter, number) in [
        (FIRST_LETTER - 1, Some(FIELD)),
        (FIRST_LETTER, None),
        (LAST_LETTER, None),
        (LAST_LETTER + 1, Some(FIELD)),
        (0xFF, Some(FIELD)),
    ] {
        let text = vec![b'a', letter];
        for growth in [
            Growth::Name(text.clone()),
            Growth::Extend([0, 1], Some(text.clone())),
            Growth::Record([1, 1, BOOL], Some(text.clone())),
            Growth::TracePoint(0, text),
        ] {
            assert_eq!(grown(&book, &growth).err(), number);
        }
    }
}

#[test]
fn three_to_six_of_the_new_book_in_their_order_and_then_ten() {
    let mut m = Maker::default();
    for node in 0..MOST_DEPTH as u32 {
        let term = m.boolean(true);
        m.context(node, term);
    }
    let free = m.boolean(false);
    m.name("t");
    let mut fuller = m.clone();
    fuller.names.resize(Section::Names.most(), [0, 1]);
    let [book, fuller] = [m.book(), fuller.book()];
    let [deepest, used] = [MOST_DEPTH as u32, 0];
    let at = |parent, term, trace| Growth::extend(parent, term, Some(trace));
    assert!(grown(&book, &at(deepest - 1, free, "t")).is_ok());
    assert_eq!(refusal(&book, &at(deepest, free, "t")), DEPTH);
    assert_eq!(refusal(&book, &at(deepest, used, "t")), FOREST);
    assert_eq!(refusal(&book, &at(deepest, used, "\n")), FIELD);
    assert_eq!(refusal(&fuller, &at(deepest, used, "\n")), COUNT);
    assert_eq!(refusal(&fuller, &at(deepest + 1, used, "\n")), NOT_IN_BOOK);
    // No buffer at all.
    for (growth, number) in [
        (at(deepest, free, "t"), DEPTH),
        (at(deepest, used, "t"), FOREST),
        (at(deepest, used, "\n"), FIELD),
        (at(0, free, "t"), TOO_LONG),
    ] {
        let answer = growth.call(&book, &mut [0; SCRATCH_SIZE], &mut []);
        assert_eq!(answer, Err(number));
    }
    for growth in [
        Growth::record(deepest, free, INT, None),
        Growth::trace_point(deepest, "t"),
        Growth::Node([deepest, free, 0]),
    ] {
        assert_eq!(refusal(&book, &growth), DEPTH);
    }
}
