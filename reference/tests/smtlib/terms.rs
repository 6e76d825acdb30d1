//! Terms, good and bad, by what is declared and bound.

use leskofar_reference::book::Section;
use leskofar_reference::smtlib::Reader;

const DECLARED: &[u8] = b"(declare-sort T 0) (declare-sort P 2) \
    (declare-fun x () Int) (declare-fun f (Int T) Bool) (declare-fun -7 () Int)";
const COMMANDS: usize = 5;

fn read(text: &str) -> Result<(), String> {
    let mut reader = Reader::default();
    assert_eq!(reader.read(DECLARED), Ok(COMMANDS));
    let read = reader.read_term(text.as_bytes());
    // It is no other in an assertion.
    let asserted = format!("(assert {text})");
    let as_command = Reader::default().read(&[DECLARED, asserted.as_bytes()].concat());
    assert_eq!(as_command.is_ok(), read.is_ok(), "{text}");
    read.map_err(|refused| refused.to_string())
}

fn are_good(texts: &[&str]) {
    for text in texts {
        assert_eq!(read(text), Ok(()), "{text}");
    }
}

fn are_bad(texts: &[(&str, &str)]) {
    for (text, refused) in texts {
        assert_eq!(read(text), Err(refused.to_string()), "{text}");
    }
}

#[test]
fn names() {
    are_good(&["true", "false", "x", "-7", "(- -7)", "(as x Int)"]);
    are_good(&["((as f Bool) x x)", "((as - Int) 5)"]);
    are_bad(&[
        ("y", "byte 0: `y` is not declared"),
        ("-5", "byte 0: `-5` is not declared"),
        ("(+ x -5)", "byte 5: `-5` is not declared"),
        ("T", "byte 0: `T` is not declared"),
        ("Int", "byte 0: `Int` is not declared"),
        ("(as y Int)", "byte 0: `y` is not declared"),
        ("(as x S)", "byte 6: the sort `S` is not declared"),
        ("(as 5 Int)", "byte 4: `5`, expected an identifier"),
        (
            "(_ x 1)",
            "byte 1: the reserved word `_`, expected an identifier",
        ),
        (
            "((_ f 1) x)",
            "byte 2: the reserved word `_`, expected an identifier",
        ),
        (
            "(match x)",
            "byte 1: the reserved word `match`, expected an identifier",
        ),
        (
            "(push x)",
            "byte 1: the reserved word `push`, expected an identifier",
        ),
    ]);
}

#[test]
fn applications() {
    are_good(&[
        "(f x x)",
        "(not true)",
        "(ite true x 1)",
        "(- 5)",
        "(- x 1 2)",
    ]);
    are_good(&["(and true true)", "(= x x x)", "(mod x 2)", "(abs (- 5))"]);
    are_good(&["( f\nx\tx )", "(f x x) ; behind\n"]);
    are_bad(&[
        ("f", "byte 0: `f` does not take 0 arguments"),
        ("(f x)", "byte 1: `f` does not take 1 arguments"),
        ("(f x x x)", "byte 1: `f` does not take 3 arguments"),
        ("(x)", "byte 2: a closing parenthesis, expected a term"),
        ("(x x)", "byte 1: `x` does not take 1 arguments"),
        ("(true true)", "byte 1: `true` does not take 1 arguments"),
        ("(not true true)", "byte 1: `not` does not take 2 arguments"),
        ("(and true)", "byte 1: `and` does not take 1 arguments"),
        ("(<= x)", "byte 1: `<=` does not take 1 arguments"),
        ("(ite true x)", "byte 1: `ite` does not take 2 arguments"),
        ("(mod x x x)", "byte 1: `mod` does not take 3 arguments"),
        ("-", "byte 0: `-` does not take 0 arguments"),
        ("(-)", "byte 2: a closing parenthesis, expected a term"),
        ("(5 -)", "byte 1: `5`, expected an identifier"),
        ("((- 1) x)", "byte 2: `-`, expected an identifier"),
        (
            "()",
            "byte 1: a closing parenthesis, expected an identifier",
        ),
        ("(f x x", "byte 6: the end, expected a term"),
        (
            "(f x x))",
            "byte 7: a closing parenthesis, expected the end",
        ),
        ("x x", "byte 2: `x`, expected the end"),
        ("", "byte 0: the end, expected a term"),
        ("(f x |x)", "byte 5: a bar without its second one"),
    ]);
}

#[test]
fn lets() {
    are_good(&["(let ((v 3)) v)", "(let ((v (- 3)) (w x)) (- v w))"]);
    are_good(&["(let ((v 1)) (let ((v v)) v))", "(let ((-5 1)) -5)"]);
    // A variable hides what is declared, also what the theory has.
    are_good(&["(let ((f 1)) f)", "(let ((true 1)) true)"]);
    are_bad(&[
        ("(let ((v v)) v)", "byte 9: `v` is not declared"),
        ("(let ((v 1) (w v)) w)", "byte 15: `v` is not declared"),
        ("(let ((v 1) (v 2)) v)", "byte 13: `v` is bound twice"),
        ("(+ (let ((v 1)) v) v)", "byte 19: `v` is not declared"),
        (
            "(let ((f 1)) (f x x))",
            "byte 14: `f` does not take 2 arguments",
        ),
        (
            "(let () x)",
            "byte 6: a closing parenthesis, expected a variable",
        ),
        ("(let (v 1) v)", "byte 6: `v`, expected a variable"),
        (
            "(let ((v)) v)",
            "byte 8: a closing parenthesis, expected a term",
        ),
        (
            "(let ((v 1 2)) v)",
            "byte 11: `2`, expected a closing parenthesis",
        ),
        ("(let ((1 v)) v)", "byte 7: `1`, expected a variable"),
        (
            "(let ((v 1)))",
            "byte 12: a closing parenthesis, expected a term",
        ),
        (
            "(let ((v 1)) v v)",
            "byte 15: `v`, expected a closing parenthesis",
        ),
        (
            "(let ((let 1)) x)",
            "byte 7: the reserved word `let`, expected a variable",
        ),
    ]);
}

#[test]
fn quantifiers() {
    are_good(&[
        "(forall ((v Int)) (< v x))",
        "(exists ((v T) (w Bool)) (f x v))",
    ]);
    are_good(&[
        "(forall ((v (P Int T))) true)",
        "(forall ((v Int) (v T)) (f x v))",
    ]);
    are_bad(&[
        (
            "(forall () true)",
            "byte 9: a closing parenthesis, expected a variable",
        ),
        (
            "(forall ((v)) true)",
            "byte 11: a closing parenthesis, expected a sort",
        ),
        (
            "(forall ((v S)) true)",
            "byte 12: the sort `S` is not declared",
        ),
        (
            "(forall ((v x)) true)",
            "byte 12: the sort `x` is not declared",
        ),
        (
            "(forall ((v (T Int))) true)",
            "byte 12: 1 sorts for `T`, which takes 0",
        ),
        (
            "(forall ((v P)) true)",
            "byte 12: 0 sorts for `P`, which takes 2",
        ),
        (
            "(forall ((v (Int))) true)",
            "byte 16: a closing parenthesis, expected a sort",
        ),
        ("(forall ((v Int)) w)", "byte 18: `w` is not declared"),
        (
            "(and (forall ((v Int)) true) v)",
            "byte 29: `v` is not declared",
        ),
        (
            "(forall ((v Int)) true true)",
            "byte 23: `true`, expected a closing parenthesis",
        ),
    ]);
}

#[test]
fn patterns() {
    are_good(&["(forall ((v Int)) (! (f v x) :pattern ((f v x))))"]);
    are_good(&["(forall ((v Int)) (! true :pattern ((- 1) v) :pattern (v)))"]);
    are_bad(&[
        (
            "(! true)",
            "byte 7: a closing parenthesis, expected a pattern",
        ),
        (
            "(! true :pattern)",
            "byte 16: a closing parenthesis, expected the terms of a pattern",
        ),
        (
            "(! true :pattern ())",
            "byte 18: a closing parenthesis, expected a term",
        ),
        (
            "(! true :pattern x)",
            "byte 17: `x`, expected the terms of a pattern",
        ),
        ("(! true :pattern (v))", "byte 18: `v` is not declared"),
        ("(! true :pattern (-1))", "byte 18: `-1` is not declared"),
        ("(! true :named t)", "byte 8: `:named`, expected a pattern"),
        (
            "(! true pattern (x))",
            "byte 8: `pattern`, expected a pattern",
        ),
        ("(!)", "byte 2: a closing parenthesis, expected a term"),
    ]);
}

/// As deep as the terms of a book nest, and twice as deep where a term prints
/// as two.
#[test]
fn deep_terms() {
    let depth = Section::Terms.most();
    for (before, behind) in [
        ("(- ", ")"),
        ("(+ x ", ")"),
        ("(ite true x ", ")"),
        ("(let ((v ", ")) v)"),
        ("(let ((v x)) ", ")"),
        ("(forall ((v Int)) (! ", " :pattern (v)))"),
        ("(exists ((v Int)) (! v :pattern (", ")))"),
    ] {
        let nested = |inner| format!("{}{inner}{}", before.repeat(depth), behind.repeat(depth));
        are_good(&[&nested("(- 5)")]);
        let refused = read(&nested("-5")).expect_err("no number");
        assert!(refused.ends_with("`-5` is not declared"));
    }
}
