//! Negative numbers, and the two pops that end a question, in the text of
//! SMT-LIB 2.6.

use crate::desk::{buffer, string, used, Answer, Desk};
use crate::examples::printed_with;
use leskofar_reference::book::INT;
use leskofar_reference::book_test::SCRATCH_SIZE;
use leskofar_reference::listing;
use leskofar_reference::maker::{sample, Maker};
use leskofar_reference::refusal::TOO_LONG;

/// Numbers with their text on one line.
const NUMBERS: [(i64, &str); 8] = [
    (0, "0"),
    (1, "1"),
    (-1, "(- 1)"),
    (10, "10"),
    (-10, "(- 10)"),
    (i64::MAX, "9223372036854775807"),
    (i64::MIN + 1, "(- 9223372036854775807)"),
    (i64::MIN, "(- 9223372036854775808)"),
];
/// The bytes of two pops.
const TWO_POPS: usize = 16;
const TEXT_SIZE: usize = 1_000;

/// The listing of a goal at the root, without its title and the line above it.
fn listed(m: &Maker, goal: u32) -> String {
    let (mut scratch, mut text) = (buffer(SCRATCH_SIZE), buffer(TEXT_SIZE));
    let length = listing(&m.book(), &mut scratch, 0, goal, &mut text);
    let whole = string(&used(&text, length.expect("accepted")));
    let goal = whole.strip_prefix("----- Proof obligation:\n  |-\n  ");
    goal.expect("a listing").trim_end().to_string()
}

#[test]
fn a_minus_is_applied_to_the_numeral() {
    for (x, text) in NUMBERS {
        let mut m = Maker::default();
        let number = m.integer(x);
        assert_eq!(printed_with(&m, number, 0, false, u64::MAX), text);
        assert_eq!(listed(&m, number), x.to_string());
        for indent in [0, 1, 7] {
            let deeper = format!("\n{}", " ".repeat(indent + 2));
            let broken = text.replace(' ', &deeper);
            let indent = indent as u64;
            assert_eq!(printed_with(&m, number, 0, true, indent), broken);
        }
    }
}

#[test]
fn it_is_broken_wherever_it_stands() {
    let mut m = Maker::default();
    let x = m.constant("x", INT);
    let args = [m.integer(-1), m.id(x), m.integer(-2)];
    let row = m.built_in("+", &args);
    assert_eq!(printed_with(&m, row, 0, false, 0), "(+ (- 1) x (- 2))");
    assert_eq!(
        printed_with(&m, row, 0, true, 0),
        "(+\n  (-\n    1)\n  x\n  (-\n    2))"
    );
    let [rhs, body] = [m.integer(-3), m.integer(-4)];
    let bound = m.let_expr(x, rhs, body);
    assert_eq!(
        printed_with(&m, bound, 0, false, 0),
        "(let ((x (- 3))) (- 4))"
    );
    assert_eq!(
        printed_with(&m, bound, 0, true, 0),
        "(let\n  ((x\n    (-\n      3)))\n  (-\n    4))"
    );
}

/// A pattern's first term stands where an operator does, at its indent.
#[test]
fn a_pattern_may_begin_with_one() {
    let mut m = Maker::default();
    let x = m.constant("x", INT);
    let terms = [m.integer(-1), m.id(x)];
    let pattern = m.pattern(&terms);
    let body = m.boolean(true);
    let forall = m.quantifier(true, &[x], &[pattern], body);
    assert_eq!(
        printed_with(&m, forall, 0, false, 0),
        "(forall ((x Int)) (! true :pattern ((- 1) x)))"
    );
    let broken =
        "(forall\n  ((x\n    Int))\n  (!\n    true\n    :pattern\n    ((-\n      1)\n      x)))";
    assert_eq!(printed_with(&m, forall, 0, true, 0), broken);
}

#[test]
fn a_goal_may_be_one() {
    let mut m = Maker::default();
    let [premise, goal] = [m.integer(i64::MIN), m.integer(-1)];
    m.context(0, premise);
    let asked = "(push 1)\n(assert (- 9223372036854775808))\n\
                 (push 1)\n(push 1)\n(assert (not (- 1)))\n(check-sat)\n";
    assert_eq!(Desk::new(&m).ask(1, goal).as_deref(), Ok(asked));
}

#[test]
fn a_tag_is_never_negative() {
    let mut m = Maker::default();
    let tag = m.literal("%tag", INT);
    for number in [0, 1, 1 << 63, u64::MAX] {
        for newlines in [false, true] {
            let text = printed_with(&m, tag, number, newlines, 0);
            assert_eq!(text, number.to_string());
        }
    }
}

/// A name stays, whatever it looks like; an applied minus has the text of a
/// negative number.
#[test]
fn names_that_look_like_one() {
    let mut m = Maker::default();
    let constant = m.constant("-5", INT);
    let five = m.integer(5);
    let terms = [
        (m.id(constant), "-5", "-5"),
        (m.built_in("-5", &[]), "-5", "-5()"),
        (m.built_in("-", &[five]), "(- 5)", "-(5)"),
        (m.integer(-5), "(- 5)", "-5"),
    ];
    for (term, text, listing) in terms {
        assert_eq!(printed_with(&m, term, 0, false, 0), text);
        assert_eq!(listed(&m, term), listing);
    }
    let declared = Desk::new(&m).ask(0, terms[0].0).expect("accepted");
    assert!(declared.starts_with("(push 1)\n(declare-fun -5 () Int)\n(push 1)\n"));
}

#[test]
fn two_pops_in_a_buffer_of_just_their_length() {
    let sample = sample();
    let mut desk = Desk::new(&sample.maker);
    let text = "(pop 1)\n(pop 1)\n".to_string();
    desk.ask(3, sample.goal).expect("accepted");
    desk.text_size = TWO_POPS - 1;
    assert_eq!(desk.reply(false, b"unsat"), Err(TOO_LONG));
    assert_eq!(desk.reply(true, b""), Err(TOO_LONG));
    desk.reply(false, b"sat").expect("no pops yet");
    assert_eq!(desk.model(b"sat", None), Err(TOO_LONG));
    desk.text_size = TWO_POPS;
    let reason = b"sat".to_vec();
    let unproved = Answer::Unproved { text, reason };
    assert_eq!(desk.model(b"sat", None), Ok(unproved));
}
