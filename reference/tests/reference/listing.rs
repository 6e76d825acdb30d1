//! Listings, byte for byte: the sample, each kind of term, and what is rare
//! in them.

use crate::desk::{buffer, string, used, Desk};
use leskofar_reference::book::{BOOL, INT};
use leskofar_reference::book_test::SCRATCH_SIZE;
use leskofar_reference::listing;
use leskofar_reference::maker::{sample, Maker};
use leskofar_reference::refusal::MISSING_AXIOM;

/// More than these texts have.
pub const ROOM: usize = 1 << 16;
pub const TITLE: &str = "----- Proof obligation:\n";
pub const TURNSTILE: &str = "  |-\n";

/// The call on a book, with a text buffer of so many bytes.
pub fn listed_from(book: &[u8], node: u32, goal: u32, room: usize) -> Result<String, u32> {
    let mut text = buffer(room);
    let mut scratch = buffer(SCRATCH_SIZE);
    let answer = listing(book, &mut scratch, node, goal, &mut text);
    assert!(scratch.iter().all(|byte| *byte == 0));
    let written = used(&text, answer.unwrap_or(0));
    answer.map(|_| string(&written))
}

pub fn listed(m: &Maker, node: u32, goal: u32) -> String {
    listed_from(&m.book(), node, goal, ROOM).expect("accepted")
}

/// A goal's own text: it stands alone at the root.
fn goal_text(m: &Maker, goal: u32) -> String {
    let whole = listed(m, 0, goal);
    let line = whole.strip_prefix(&[TITLE, TURNSTILE, "  "].concat());
    let text = line.and_then(|line| line.strip_suffix("\n"));
    text.expect("title, turnstile, goal").to_string()
}

#[test]
fn the_sample() {
    let sample = sample();
    let expected = "\
----- Proof obligation:
  <(0, x)
  =(y, f(x))
  |-
  <(0, f(y))
";
    assert_eq!(listed(&sample.maker, 2, sample.goal), expected);
    let sibling = expected.replace("=(y, f(x))", "<(x, 9)");
    assert_eq!(listed(&sample.maker, 3, sample.goal), sibling);
    let at_root = "----- Proof obligation:\n  |-\n  <(0, f(y))\n";
    assert_eq!(listed(&sample.maker, 0, sample.goal), at_root);
}

#[test]
fn a_goal_is_any_term() {
    let sample = sample();
    let m = &sample.maker;
    let [_, premise, _] = m.contexts[0];
    let expected = [TITLE, "  <(0, x)\n", TURNSTILE, "  <(0, x)\n"].concat();
    assert_eq!(listed(m, 1, premise), expected);
    let [axiom, ..] = m.axioms[0];
    assert_eq!(goal_text(m, axiom), "(forall z: int =(f(z), z))");
    let [.., body] = m.terms[axiom as usize];
    assert_eq!(goal_text(m, body), "=(f(z), z)");
}

#[test]
fn each_kind_of_term() {
    let mut m = Maker::default();
    let shade = m.user_type("Shade");
    let [p, x, s] = [
        m.constant("p", BOOL),
        m.constant("x", INT),
        m.constant("s", shade),
    ];
    let f = m.function("f", &[INT], BOOL);
    let mut table: Vec<(u32, &str)> = vec![
        (m.boolean(true), "true"),
        (m.boolean(false), "false"),
        (m.integer(0), "0"),
        (m.integer(-5), "-5"),
        (m.integer(1 << 32), "4294967296"),
        (m.integer(i64::MAX), "9223372036854775807"),
        (m.integer(i64::MIN), "-9223372036854775808"),
        (m.literal("red", shade), "red:Shade"),
        (m.literal("on", BOOL), "on:bool"),
        (m.literal("%tag", INT), "%tag:int"),
        (m.literal("a b", INT), "a b:int"),
        (m.built_in("a|b", &[]), "a|b()"),
        (m.id(s), "s"),
        (m.built_in("and", &[]), "and()"),
        (m.apply(f, &[]), "f()"),
    ];
    let args = [m.id(p), m.integer(-1), m.literal("red", shade)];
    table.push((m.built_in("or", &args), "or(p, -1, red:Shade)"));
    let args = [m.id(x), m.id(x)];
    table.push((m.apply(f, &args), "f(x, x)"));
    let [guard, thn, els] = [m.id(p), m.integer(1), m.integer(2)];
    table.push((m.if_then_else(guard, thn, els), "(if p 1 else 2)"));
    let [rhs, body] = [m.integer(3), m.id(x)];
    table.push((m.let_expr(x, rhs, body), "(val x: int := 3 x)"));
    let [rhs, body] = [m.boolean(true), m.id(s)];
    table.push((m.let_expr(s, rhs, body), "(val s: Shade := true s)"));
    let body = m.id(p);
    table.push((m.quantifier(true, &[p], &[], body), "(forall p: bool p)"));
    let terms = [m.id(x), m.id(s), m.id(p)];
    let patterns = [m.pattern(&terms[..2]), m.pattern(&terms[2..])];
    let body = m.id(p);
    table.push((
        m.quantifier(false, &[x, s, x], &patterns, body),
        "(exists x: int, s: Shade, x: int pattern x, s pattern p p)",
    ));
    for (term, text) in table {
        assert_eq!(goal_text(&m, term), text);
    }
}

#[test]
fn quantifiers_without_variables_and_empty_patterns() {
    let mut m = Maker::default();
    let [p, x] = [m.constant("p", BOOL), m.constant("x", INT)];
    let empty = m.pattern(&[]);
    let mut quantified = |univ, vv: &[u32], patterns: &[u32]| {
        let body = m.id(p);
        let goal = m.quantifier(univ, vv, patterns, body);
        goal_text(&m, goal)
    };
    assert_eq!(quantified(true, &[], &[]), "(forall  p)");
    assert_eq!(
        quantified(false, &[x], &[empty]),
        "(exists x: int pattern  p)"
    );
    assert_eq!(
        quantified(false, &[], &[empty, empty]),
        "(exists  pattern  pattern  p)"
    );
    let hint = m.id(x);
    let pattern = m.pattern(&[hint]);
    let body = m.id(p);
    let goal = m.quantifier(false, &[], &[pattern], body);
    assert_eq!(goal_text(&m, goal), "(exists  pattern x p)");
}

#[test]
fn empty_names_are_nothing() {
    let mut m = Maker::default();
    let args = [m.literal("", INT), m.literal("", BOOL)];
    let operator = m.built_in("", &args);
    assert_eq!(goal_text(&m, operator), "(:int, :bool)");
    let premise = m.built_in("", &[]);
    let node = m.context(0, premise);
    let expected = [TITLE, "  ()\n", TURNSTILE, "  ()\n"].concat();
    assert_eq!(listed(&m, node, premise), expected);
}

/// Names with bars keep them, and names that the solver needs them for get none.
#[test]
fn names_stay_raw() {
    let mut m = Maker::default();
    let typ = m.user_type("|red 40|");
    let c = m.constant("a b", typ);
    let f = m.function("||", &[], BOOL);
    let args = [m.id(c), m.literal("%tag", typ)];
    let applied = m.apply(f, &args);
    assert_eq!(goal_text(&m, applied), "||(a b, %tag:|red 40|)");
    let [rhs, body] = [m.id(c), m.id(c)];
    let bound = m.let_expr(c, rhs, body);
    assert_eq!(goal_text(&m, bound), "(val a b: |red 40| := a b a b)");
    let quantified = m.quantifier(true, &[c, c], &[], bound);
    let expected = "(forall a b: |red 40|, a b: |red 40| (val a b: |red 40| := a b a b))";
    assert_eq!(goal_text(&m, quantified), expected);
}

#[test]
fn a_missing_axiom_plays_no_part() {
    let mut m = Maker::default();
    let f = m.function("f", &[], BOOL);
    let missing = m.axiom(None, &[f]);
    m.explained_by(f, &[missing]);
    let [premise, goal] = [m.apply(f, &[]), m.apply(f, &[])];
    let node = m.context(0, premise);
    assert_eq!(Desk::new(&m).ask(node, goal), Err(MISSING_AXIOM));
    let expected = [TITLE, "  f()\n", TURNSTILE, "  f()\n"].concat();
    assert_eq!(listed(&m, node, goal), expected);
}
