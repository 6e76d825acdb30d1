//! What plans mean, on goals whose truth is plain.

use leskofar_reference::attack::search::{never_proved, Never};

const BEGIN: &str = "(type Shade) (constant x Int) (constant y Int) (constant k Int) \
                     (constant b Bool) (function f (Int) Int) (node n root (= x 4)) \
                     (node m n (< y x)) ";

fn never(goal: &str) -> Option<Never> {
    let text = format!("{BEGIN}{goal}");
    let never = never_proved(&text).expect("a plan");
    never.first().map(|(_, never)| *never)
}

#[test]
fn what_follows_has_no_counterexample() {
    for goal in [
        "(goal g n (< x 5))",
        "(goal g m (<= (+ y 1) 4))",
        "(goal g m (not (= x y)))",
        "(goal g m (let ((k y)) (< k 4)))",
        "(goal g m (let ((y 9)) (let ((x 10)) (< y x))))",
        "(goal g n (exists ((k Int)) (= k x)))",
        "(goal g n (forall ((k Int)) (=> (and (<= 1 k) (<= k 3)) (< k x))))",
        "(goal g n (= (f x) (f 4)))",
        "(goal g root (= (literal \"a\" Shade) |a:Shade|))",
        "(goal g root (= (- 7) (- 0 7) (- (mod -7 7) 7) (* 7 (div -1 2))))",
        "(goal g root (or b (xor b true)))",
    ] {
        assert_eq!(never(goal), None, "{goal}");
    }
}

#[test]
fn what_does_not_follow_has_one() {
    for goal in [
        "(goal g n (< x 4))",
        "(goal g root (= x 4))",
        "(goal g n (< y x))",
        "(goal g m (< y 3))",
        "(goal g m (let ((x y)) (= x 4)))",
        "(goal g n (forall ((k Int)) (=> (and (<= 1 k) (<= k 4)) (< k x))))",
        "(goal g n (forall ((x Int)) (= x 4)))",
        "(goal g n (= (f x) 4))",
        "(goal g root (not (= (literal \"a\" Shade) (literal \"b\" Shade))))",
        "(goal g root (not (= (builtin \"+\" x 1) y)))",
        "(goal g root b)",
    ] {
        assert_eq!(never(goal), Some(Never::HasCounterexample), "{goal}");
    }
}

#[test]
fn what_breaks_the_sorts_means_nothing() {
    for goal in [
        "(goal g n (<= (+ x y 3)))",
        "(goal g n x)",
        "(goal g n (and b))",
        "(goal g n (= x b))",
        "(goal g n (= (f x x) 1))",
        "(goal g n (ite x b b))",
        "(goal g n (let ((k b)) b))",
        "(goal g n (not b b))",
        "(goal g n and)",
        "(goal g n (builtin \"and true) (or\" b b))",
        "(goal g n (builtin \"let\" b b))",
        "(goal g n (builtin \"|<=|\" x))",
    ] {
        assert_eq!(never(goal), Some(Never::HasNoMeaning), "{goal}");
    }
}

#[test]
fn what_is_not_known_is_left_alone() {
    for goal in [
        "(goal g n (= %tag x))",
        "(goal g n (builtin \"is-odd\" x))",
        "(goal g n (exists ((k Int)) (= k 77)))",
        "(goal g n (not (exists ((k Int)) (= k 77))))",
        "(goal g root (= 0 (div x 0)))",
    ] {
        assert_eq!(never(goal), None, "{goal}");
    }
}

#[test]
fn what_is_no_plan_has_no_goals() {
    for text in [
        "(goal g root true",
        "(goal g nowhere true)",
        "(goal g root z)",
        "(constant x Int :name y)",
        "(goal g root (true))",
    ] {
        assert_eq!(never_proved(text), None, "{text}");
    }
}
