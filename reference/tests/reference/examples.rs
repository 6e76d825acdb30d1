//! P1 to P10 and the whole session of document 01, byte for byte.

use crate::desk::{buffer, string, used, Answer, Desk};
use leskofar_reference::book_test::SCRATCH_SIZE;
use leskofar_reference::maker::{sample, small, Maker};
use leskofar_reference::{print, script};

const TEXT_SIZE: usize = 1_000;
const LEAST: &str = "(- 9223372036854775808)";

/// A term in one line.
fn printed(maker: &Maker, term: u32) -> String {
    printed_with(maker, term, 0, false, 0)
}

pub fn printed_with(maker: &Maker, term: u32, tag: u64, newlines: bool, indent: u64) -> String {
    let mut text = buffer(TEXT_SIZE);
    let mut scratch = buffer(SCRATCH_SIZE);
    let book = maker.book();
    let length = print(&book, &mut scratch, term, tag, newlines, indent, &mut text);
    string(&used(&text, length.expect("the print is accepted")))
}

#[test]
fn p1_to_p3_integers() {
    let small = small();
    assert_eq!(printed(&small.maker, small.zero), "0");
    assert_eq!(printed(&small.maker, small.minus_five), "(- 5)");
    assert_eq!(printed(&small.maker, small.least), LEAST);
}

#[test]
fn p4_and_without_arguments() {
    let small = small();
    assert_eq!(printed(&small.maker, small.bare_and), "and");
}

#[test]
fn p5_newlines() {
    let small = small();
    let text = printed_with(&small.maker, small.and_not, 0, true, 0);
    assert_eq!(text, "(and\n  a\n  (not\n    b))");
    assert_eq!(printed(&small.maker, small.and_not), "(and a (not b))");
}

#[test]
fn p6_let() {
    let small = small();
    assert_eq!(printed(&small.maker, small.let_three), "(let ((v 3)) v)");
}

#[test]
fn p7_quantifier_without_variables() {
    let small = small();
    assert_eq!(printed(&small.maker, small.no_variables), "b");
    let asked = Desk::new(&small.maker).ask(0, small.no_variables);
    let expected = "(push 1)\n(declare-fun a () Bool)\n(declare-fun b () Bool)\n\
                    (push 1)\n(assert (not b))\n(check-sat)\n";
    assert_eq!(asked.as_deref(), Ok(expected));
}

#[test]
fn p8_tag() {
    let small = small();
    let moved = Desk::new(&small.maker).move_to(small.tagged_node);
    let expected =
        "(push 1)\n(declare-sort T 0)\n(declare-fun t () T)\n(assert (= t 2))\n".to_string();
    assert_eq!(moved, Ok(expected));
}

#[test]
fn p9_move_to_the_present_node() {
    let mut desk = Desk::new(&sample().maker);
    desk.move_to(2).expect("accepted");
    let image = desk.image.clone();
    desk.text_size = 0;
    assert_eq!(desk.move_to(2).as_deref(), Ok(""));
    assert_eq!(desk.image, image);
}

#[test]
fn p10_depth_two_to_the_root() {
    let mut desk = Desk::new(&sample().maker);
    desk.move_to(2).expect("accepted");
    assert_eq!(desk.move_to(0).as_deref(), Ok("(pop 1)\n(pop 1)\n"));
}

const MOVE_2: &str = "(push 1)
(declare-fun x () Int)
(assert (< 0 x))
(push 1)
(declare-fun y () Int)
(declare-fun f (Int) Int)
(assert (forall ((z Int)) (= (f z) z)))
(assert (= y (f x)))
";
const MOVE_3: &str = "(pop 1)
(push 1)
(assert (< x 9))
";
const ASK_3: &str = "(push 1)
(declare-fun f (Int) Int)
(assert (forall ((z Int)) (= (f z) z)))
(declare-fun y () Int)
(push 1)
(assert (not (< 0 (f y))))
(check-sat)
";
const POPS: &str = "(pop 1)\n(pop 1)\n";

#[test]
fn the_sample_session() {
    let sample = sample();
    let mut desk = Desk::new(&sample.maker);
    assert_eq!(desk.move_to(2).as_deref(), Ok(MOVE_2));
    assert_eq!(desk.move_to(3).as_deref(), Ok(MOVE_3));
    assert_eq!(desk.ask(3, sample.goal).as_deref(), Ok(ASK_3));
    let proved = Answer::Proved { text: POPS.into() };
    assert_eq!(desk.reply(false, b"unsat"), Ok(proved));
}

#[test]
fn the_sample_session_by_script() {
    let sample = sample();
    let calls = [[1, 2, 0], [1, 3, 0], [2, 3, sample.goal]];
    let input = crate::script_program::input(&sample.maker.book(), &calls);
    assert_eq!(
        string(&script(&input)),
        [MOVE_2, MOVE_3, ASK_3, POPS].concat()
    );
}
