//! The rules of DeclareNewSymbols that are easy to miss.

use crate::desk::Desk;
use leskofar_reference::book::{BOOL, INT};
use leskofar_reference::maker::Maker;
use leskofar_reference::refusal::MISSING_AXIOM;

/// The lines that a fresh ask of a term sends before the goal's negation, and
/// that negation.
fn asked(m: &Maker, goal: u32) -> Vec<String> {
    let text = Desk::new(m).ask(0, goal).expect("accepted");
    let lines: Vec<String> = text.lines().map(String::from).collect();
    let [push, declared @ .., second_push, negation, check] = &lines[..] else {
        panic!("an ask has four lines at least");
    };
    assert_eq!(
        [push, second_push, check],
        ["(push 1)", "(push 1)", "(check-sat)"]
    );
    [declared, std::slice::from_ref(negation)].concat()
}

#[test]
fn literals_of_equal_text_by_different_splits() {
    let mut m = Maker::default();
    let [c, bc] = [m.user_type("c"), m.user_type("b:c")];
    let [first, second] = [m.literal("a:b", c), m.literal("a", bc)];
    let goal = m.built_in("=", &[first, second]);
    // The second is not declared, nor its type.
    assert_eq!(
        asked(&m, goal),
        [
            "(declare-sort c 0)",
            "(declare-fun |a:b:c| () c)",
            "(assert (not (= |a:b:c| |a:b:c|)))"
        ]
    );
}

#[test]
fn a_literals_level_sits_at_the_declaring_term() {
    let mut m = Maker::default();
    let [c, bc] = [m.user_type("c"), m.user_type("b:c")];
    let [first, second] = [m.literal("a:b", c), m.literal("a", bc)];
    m.context(0, second);
    m.context(1, first);
    let mut desk = Desk::new(&m);
    desk.move_to(2).expect("accepted");
    // The head, and the places before the literals, of two bytes each.
    let literals = &desk.image[16 + 2 * (64 + 256 + 128 + 128)..];
    assert_eq!(literals[..4], [0, 0, 1, 0]);
}

#[test]
fn literals_may_have_built_in_types_and_constants_their_names() {
    let mut m = Maker::default();
    let constant = m.constant("|a:int|", INT);
    let args = [
        m.literal("a", INT),
        m.id(constant),
        m.literal("a", BOOL),
        m.literal("a", INT),
    ];
    let goal = m.built_in("f", &args);
    assert_eq!(
        asked(&m, goal)[..3],
        [
            "(declare-fun |a:int| () Int)",
            "(declare-fun |a:int| () Int)",
            "(declare-fun |a:bool| () Bool)",
        ]
    );
}

#[test]
fn tag_is_not_declared_and_counts_everything() {
    let mut m = Maker::default();
    let t = m.user_type("T");
    let f = m.function("f", &[], t);
    let inner = m.literal("%tag", t);
    let axiom = m.axiom(Some(inner), &[]);
    m.explained_by(f, &[axiom]);
    let args = [m.apply(f, &[]), m.literal("a", INT), m.literal("%tag", INT)];
    let goal = m.built_in("g", &args);
    // The type, the function, the axiom itself; then the literal.
    assert_eq!(
        asked(&m, goal),
        [
            "(declare-sort T 0)",
            "(declare-fun f () T)",
            "(assert 3)",
            "(declare-fun |a:int| () Int)",
            "(assert (not (g f |a:int| 4)))"
        ]
    );
    let mut m = Maker::default();
    let t = m.user_type("T");
    let alone = m.literal("%tag", t);
    assert_eq!(asked(&m, alone), ["(assert (not 0))"]);
}

#[test]
fn names_are_symbols_in_declarations() {
    let mut m = Maker::default();
    let t = m.user_type("a b");
    let f = m.function("||", &[t, INT], t);
    let goal = m.apply(f, &[]);
    assert_eq!(
        asked(&m, goal),
        [
            "(declare-sort |a b| 0)",
            "(declare-fun || (|a b| Int) |a b|)",
            "(assert (not ||))"
        ]
    );
}

#[test]
fn a_functions_order() {
    let mut m = Maker::default();
    let types = ["A", "B", "C"].map(|name| m.user_type(name));
    let [a, b, c] = types;
    let f = m.function("f", &[b, a, b], c);
    let true_term = m.boolean(true);
    let axiom = m.axiom(Some(true_term), &[f]);
    m.explained_by(f, &[axiom, axiom]);
    let x = m.constant("x", INT);
    let args = [m.id(x)];
    let goal = m.apply(f, &args);
    assert_eq!(
        asked(&m, goal),
        [
            "(declare-sort B 0)",
            "(declare-sort A 0)",
            "(declare-sort C 0)",
            "(declare-fun f (B A B) C)",
            "(assert true)",
            "(declare-fun x () Int)",
            "(assert (not (f x)))"
        ]
    );
}

#[test]
fn bound_constants_are_excluded_by_number() {
    let mut m = Maker::default();
    let t = m.user_type("T");
    let [x, same_name] = [m.constant("x", t), m.constant("x", INT)];
    let [rhs, used] = [m.id(x), m.id(x)];
    let inner = m.built_in("p", &[used]);
    let goal = m.let_expr(x, rhs, inner);
    // The right side is outside the binding.
    assert_eq!(
        asked(&m, goal),
        [
            "(declare-sort T 0)",
            "(declare-fun x () T)",
            "(assert (not (let ((x x)) (p x))))"
        ]
    );
    let [hint, other, used] = [m.id(x), m.id(same_name), m.id(x)];
    let pattern = m.pattern(&[hint]);
    let body = m.built_in("q", &[other, used]);
    let goal = m.quantifier(false, &[x], &[pattern], body);
    assert_eq!(
        asked(&m, goal),
        [
            "(declare-sort T 0)",
            "(declare-fun x () Int)",
            "(assert (not (exists ((x T)) (! (q x x) :pattern (x)))))"
        ]
    );
    // Asked by itself, the body has its constants free.
    assert_eq!(
        asked(&m, body)[..3],
        [
            "(declare-fun x () Int)",
            "(declare-sort T 0)",
            "(declare-fun x () T)"
        ]
    );
}

#[test]
fn outer_exclusions_do_not_pass_into_an_axiom() {
    let mut m = Maker::default();
    let x = m.constant("x", INT);
    let f = m.function("f", &[], INT);
    let free = m.id(x);
    let axiom = m.axiom(Some(free), &[f]);
    m.explained_by(f, &[axiom]);
    let body = m.apply(f, &[]);
    let goal = m.quantifier(true, &[x], &[], body);
    assert_eq!(
        asked(&m, goal),
        [
            "(declare-fun f () Int)",
            "(declare-fun x () Int)",
            "(assert x)",
            "(assert (not (forall ((x Int)) f)))"
        ]
    );
}

#[test]
fn an_axiom_waits_for_all_that_it_explains() {
    for g_lists_it in [false, true] {
        let mut m = Maker::default();
        let [f, g] = ["f", "g"].map(|name| m.function(name, &[], INT));
        let cond = m.boolean(true);
        let axiom = m.axiom(Some(cond), &[f, g]);
        m.explained_by(f, &[axiom]);
        if g_lists_it {
            m.explained_by(g, &[axiom]);
        }
        let args = [m.apply(f, &[]), m.apply(g, &[])];
        let goal = m.built_in("=", &args);
        let sent = asked(&m, goal).contains(&"(assert true)".to_string());
        assert_eq!(sent, g_lists_it);
    }
}

#[test]
fn axioms_in_a_cycle_are_sent_once() {
    let mut m = Maker::default();
    let [f, g] = ["f", "g"].map(|name| m.function(name, &[], INT));
    let [of_f, of_g] = [m.apply(g, &[]), m.apply(f, &[])];
    let [for_f, for_g] = [m.axiom(Some(of_f), &[]), m.axiom(Some(of_g), &[f, g])];
    m.explained_by(f, &[for_f]);
    m.explained_by(g, &[for_g, for_f]);
    let goal = m.apply(f, &[]);
    // The inner axiom is asserted before the one that led to it.
    assert_eq!(
        asked(&m, goal),
        [
            "(declare-fun f () Int)",
            "(declare-fun g () Int)",
            "(assert f)",
            "(assert g)",
            "(assert (not f))"
        ]
    );
}

#[test]
fn a_missing_axiom_counts_although_it_would_not_be_sent() {
    let mut m = Maker::default();
    let [f, g] = ["f", "g"].map(|name| m.function(name, &[], INT));
    let missing = m.axiom(None, &[g]);
    m.explained_by(f, &[missing]);
    let goal = m.apply(f, &[]);
    let unaffected = m.apply(g, &[]);
    let mut desk = Desk::new(&m);
    assert_eq!(desk.ask(0, goal), Err(MISSING_AXIOM));
    assert!(desk.ask(0, unaffected).is_ok());
}

#[test]
fn what_is_declared_above_is_not_declared_again() {
    let mut m = Maker::default();
    let x = m.constant("x", INT);
    let terms: Vec<u32> = (0..4).map(|_| m.id(x)).collect();
    m.context(0, terms[0]);
    m.context(1, terms[1]);
    m.context(0, terms[2]);
    let mut desk = Desk::new(&m);
    let declared = "(push 1)\n(declare-fun x () Int)\n(assert x)\n";
    let both = [declared, "(push 1)\n(assert x)\n"].concat();
    assert_eq!(desk.move_to(2), Ok(both));
    // Equal terms are two nodes all the same.
    let again = ["(pop 1)\n(pop 1)\n", declared].concat();
    assert_eq!(desk.move_to(3), Ok(again));
    let goal = "(push 1)\n(push 1)\n(assert (not x))\n(check-sat)\n";
    assert_eq!(desk.ask(3, terms[3]).as_deref(), Ok(goal));
}
