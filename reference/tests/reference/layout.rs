//! Both layouts, and indents up to the largest number.

use crate::desk::{buffer, string, used};
use crate::examples::printed_with;
use leskofar_reference::book::{BOOL, INT};
use leskofar_reference::book_test::SCRATCH_SIZE;
use leskofar_reference::maker::{small, Maker};
use leskofar_reference::refusal::{NOT_IN_BOOK, TOO_LONG};
use leskofar_reference::{print, trace};

#[test]
fn a_let_with_newlines() {
    let small = small();
    let text = printed_with(&small.maker, small.let_three, 0, true, 0);
    assert_eq!(text, "(let\n  ((v\n    3))\n  v)");
}

#[test]
fn the_indent_stands_only_after_newlines() {
    let small = small();
    let text = printed_with(&small.maker, small.and_not, 0, true, 1);
    assert_eq!(text, "(and\n   a\n   (not\n     b))");
    let text = printed_with(&small.maker, small.and_not, 0, false, u64::MAX);
    assert_eq!(text, "(and a (not b))");
}

#[test]
fn indents_near_the_largest_number() {
    let small = small();
    for indent in [u64::MAX, u64::MAX - 1, u64::MAX - 2, 1 << 63, 1 << 40] {
        assert_eq!(printed_with(&small.maker, small.zero, 0, true, indent), "0");
        let mut text = buffer(64);
        let mut scratch = buffer(SCRATCH_SIZE);
        let book = small.maker.book();
        let goal = small.and_not;
        let answer = print(&book, &mut scratch, goal, 0, true, indent, &mut text);
        assert_eq!(answer, Err(TOO_LONG));
        assert_eq!(used(&text, 0), []);
    }
}

#[test]
fn a_text_filling_its_buffer_passes() {
    let small = small();
    let book = small.maker.book();
    let expected = "(and\n     a\n     (not\n       b))";
    for (size, answer) in [
        (expected.len(), Ok(expected.len())),
        (expected.len() - 1, Err(TOO_LONG)),
        (0, Err(TOO_LONG)),
    ] {
        let mut text = buffer(size);
        let mut scratch = buffer(SCRATCH_SIZE + 1);
        let printed = print(&book, &mut scratch, small.and_not, 0, true, 3, &mut text);
        assert_eq!(printed, answer);
        assert_eq!(
            string(&used(&text, answer.unwrap_or(0))),
            expected[..answer.unwrap_or(0)]
        );
        assert!(scratch.iter().all(|byte| *byte == 0));
    }
}

#[test]
fn the_tag_of_a_print_is_the_callers() {
    let mut m = Maker::default();
    let tag = m.literal("%tag", INT);
    let other = m.literal("%tags", INT);
    let operator = m.built_in("%tag", &[tag, other]);
    let text = printed_with(&m, operator, u64::MAX, false, 0);
    assert_eq!(text, "(%tag 18446744073709551615 |%tags:int|)");
}

/// Operators and the texts of literals; what is declared has a name.
#[test]
fn names_may_be_empty() {
    let mut m = Maker::default();
    let none = m.user_type("||");
    let c = m.constant("||", none);
    let [a, b, d] = [m.id(c), m.literal("", INT), m.literal("", BOOL)];
    let operator = m.built_in("", &[a, b, d]);
    let bare = m.built_in("", &[]);
    let body = m.boolean(true);
    let pattern = m.pattern(&[bare]);
    let empty = m.pattern(&[]);
    let forall = m.quantifier(true, &[c, c], &[pattern, empty], body);
    let exists_body = m.boolean(false);
    let exists = m.quantifier(false, &[c], &[], exists_body);
    assert_eq!(
        printed_with(&m, operator, 0, false, 0),
        "(() || |:int| |:bool|)"
    );
    assert_eq!(
        printed_with(&m, forall, 0, false, 0),
        "(forall ((|| ||) (|| ||)) (! true :pattern (()) :pattern ()))"
    );
    assert_eq!(
        printed_with(&m, exists, 0, false, 0),
        "(exists ((|| ||)) false)"
    );
}

#[test]
fn if_then_else_and_functions() {
    let mut m = Maker::default();
    let f = m.function("f", &[INT], BOOL);
    let [a, b, c] = [m.apply(f, &[]), m.integer(i64::MAX), m.integer(1 << 32)];
    let d = m.apply(f, &[b]);
    let ite = m.if_then_else(a, d, c);
    assert_eq!(
        printed_with(&m, ite, 0, false, 0),
        "(ite f (f 9223372036854775807) 4294967296)"
    );
}

#[test]
fn a_trace_goes_from_the_root_down() {
    let mut m = Maker::default();
    let terms: Vec<u32> = (0..5).map(|_| m.boolean(true)).collect();
    let first = m.traced_context(0, terms[0], "first");
    let second = m.context(first, terms[1]);
    let third = m.traced_context(second, terms[2], "");
    let fourth = m.traced_context(third, terms[3], "last");
    m.traced_context(0, terms[4], "aside");
    let book = m.book();
    let traced = |node, size| {
        let mut text = buffer(size);
        let mut scratch = buffer(SCRATCH_SIZE);
        let answer = trace(&book, &mut scratch, node, &mut text);
        let written = answer.unwrap_or(0);
        answer.map(|_| string(&used(&text, written)))
    };
    assert_eq!(traced(0, 0).as_deref(), Ok(""));
    let whole = "  first\n  \n  last\n";
    assert_eq!(traced(fourth, whole.len()).as_deref(), Ok(whole));
    assert_eq!(traced(fourth, whole.len() - 1), Err(TOO_LONG));
    assert_eq!(traced(second, 8).as_deref(), Ok("  first\n"));
    assert_eq!(traced(6, 0), Err(NOT_IN_BOOK));
}
