//! Commands, good and bad, and what is live between them.

use leskofar_reference::smtlib::Reader;

/// Reads texts one after another by one reader, and gives what came of the
/// last.
fn read(texts: &[&str]) -> Result<usize, String> {
    let mut reader = Reader::default();
    let (last, before) = texts.split_last().expect("a text");
    for text in before {
        assert!(reader.read(text.as_bytes()).is_ok(), "{text}");
    }
    let read = reader.read(last.as_bytes());
    read.map_err(|refused| refused.to_string())
}

fn are_bad(texts: &[(&str, &str)]) {
    for (text, refused) in texts {
        assert_eq!(read(&[text]), Err(refused.to_string()), "{text}");
    }
}

#[test]
fn any_number_of_commands() {
    assert_eq!(read(&[""]), Ok(0));
    assert_eq!(read(&["; (push)\n"]), Ok(0));
    let text = "(push 1)\n(declare-sort T 0)\n(declare-fun x (T Int) Bool)\n\
                (assert true)\n(check-sat)\n(get-model)\n(pop 1)\n";
    assert_eq!(read(&[text]), Ok(7));
    assert_eq!(read(&["(push 0)(pop 0)(push 2)(pop 1)(pop 1)"]), Ok(5));
    assert_eq!(read(&[" ( check-sat ) ; at the end"]), Ok(1));
}

#[test]
fn push_and_pop_have_a_numeral() {
    are_bad(&[
        (
            "(push)",
            "byte 5: a closing parenthesis, expected a numeral",
        ),
        ("(pop)", "byte 4: a closing parenthesis, expected a numeral"),
        ("(push -1)", "byte 6: `-1`, expected a numeral"),
        ("(push 01)", "byte 6: `01` begins with a zero"),
        ("(push 1.0)", "byte 6: `1.0`, expected a numeral"),
        ("(push one)", "byte 6: `one`, expected a numeral"),
        (
            "(push (- 1))",
            "byte 6: an opening parenthesis, expected a numeral",
        ),
        ("(push 1 1)", "byte 8: `1`, expected a closing parenthesis"),
        (
            "(push 18446744073709551616)",
            "byte 6: `18446744073709551616` is too large",
        ),
        (
            "push 1",
            "byte 0: the reserved word `push`, expected a command",
        ),
    ]);
    let most = "(push 18446744073709551615)";
    let refused = "byte 6: 1 levels are too many";
    assert_eq!(read(&[most, "(push 1)"]), Err(refused.into()));
}

#[test]
fn the_first_level_is_never_popped() {
    let refused = |levels| Err(format!("byte 5: {levels} levels to pop, and there are 0"));
    assert_eq!(read(&["(pop 1)"]), refused(1));
    assert_eq!(read(&["(push 1)", "(pop 1)", "(pop 1)"]), refused(1));
    let two = Err("byte 5: 2 levels to pop, and there are 1".into());
    assert_eq!(read(&["(push 1)", "(pop 2)"]), two);
}

#[test]
fn what_is_declared_goes_with_its_level() {
    let x = "(declare-fun x () Int)";
    let asserted = "(assert (< x 0))";
    let gone = || Err("byte 11: `x` is not declared".into());
    assert_eq!(read(&[x, "(push 1)", asserted]), Ok(1));
    assert_eq!(read(&[x, "(push 1)", "(pop 1)", asserted]), Ok(1));
    assert_eq!(read(&["(push 1)", x, asserted]), Ok(1));
    assert_eq!(read(&["(push 1)", x, "(pop 1)", asserted]), gone());
    assert_eq!(read(&["(push 2)", x, "(pop 1)", asserted]), gone());
    assert_eq!(read(&["(push 1)", x, "(pop 1)", x, asserted]), Ok(1));
    let sort = "(declare-sort T 0)";
    let of_sort = "(declare-fun t () T)";
    let gone = Err("byte 18: the sort `T` is not declared".into());
    assert_eq!(read(&["(push 1)", sort, of_sort]), Ok(1));
    assert_eq!(read(&["(push 1)", sort, "(pop 1)", of_sort]), gone);
}

#[test]
fn a_live_name_is_not_declared_again() {
    let x = "(declare-fun x () Int)";
    let twice = "byte 13: `x` is declared already";
    assert_eq!(read(&[x, x]), Err(twice.into()));
    assert_eq!(read(&[x, "(push 1)", x]), Err(twice.into()));
    assert_eq!(read(&[x, "(declare-fun |x| (Int) Int)"]), Err(twice.into()));
    // A sort and a function may have the same name.
    assert_eq!(read(&[x, "(declare-sort x 0)"]), Ok(1));
    are_bad(&[
        (
            "(declare-fun and () Bool)",
            "byte 13: `and` is declared already",
        ),
        (
            "(declare-fun - (Int) Int)",
            "byte 13: `-` is declared already",
        ),
        (
            "(declare-fun |true| () Bool)",
            "byte 13: `true` is declared already",
        ),
        ("(declare-sort Int 0)", "byte 14: `Int` is declared already"),
        (
            "(declare-sort |Bool| 0)",
            "byte 14: `Bool` is declared already",
        ),
    ]);
}

#[test]
fn names_that_may_be_declared() {
    for name in [
        "-5",
        "|let|",
        "|5|",
        "|a b|",
        "||",
        "x.y",
        "x@",
        "|.5:int|",
        "~!$%^&*_-+=<>?/",
    ] {
        let text = format!("(declare-fun {name} () Int)(assert (= {name} 1))");
        assert_eq!(read(&[&text]), Ok(2), "{name}");
    }
    are_bad(&[
        (
            "(declare-fun let () Int)",
            "byte 13: the reserved word `let`, expected a symbol",
        ),
        (
            "(declare-fun push () Int)",
            "byte 13: the reserved word `push`, expected a symbol",
        ),
        (
            "(declare-fun ! () Int)",
            "byte 13: the reserved word `!`, expected a symbol",
        ),
        (
            "(declare-sort _ 0)",
            "byte 14: the reserved word `_`, expected a symbol",
        ),
        (
            "(declare-sort NUMERAL 0)",
            "byte 14: the reserved word `NUMERAL`, expected a symbol",
        ),
        (
            "(declare-fun @x () Int)",
            "byte 13: `@x` is for solvers to declare",
        ),
        (
            "(declare-fun |.x| () Int)",
            "byte 13: `.x` is for solvers to declare",
        ),
        ("(declare-fun 5 () Int)", "byte 13: `5`, expected a symbol"),
        (
            "(declare-fun  () Int)",
            "byte 14: an opening parenthesis, expected a symbol",
        ),
        ("(declare-sort  0)", "byte 15: `0`, expected a symbol"),
    ]);
}

#[test]
fn declarations_and_assertions() {
    are_bad(&[
        (
            "(declare-sort T)",
            "byte 15: a closing parenthesis, expected a numeral",
        ),
        (
            "(declare-sort T 0 0)",
            "byte 18: `0`, expected a closing parenthesis",
        ),
        (
            "(declare-fun x Int)",
            "byte 15: `Int`, expected the sorts of the arguments",
        ),
        (
            "(declare-fun x ())",
            "byte 17: a closing parenthesis, expected a sort",
        ),
        (
            "(declare-fun x (T) Int)",
            "byte 16: the sort `T` is not declared",
        ),
        (
            "(declare-fun x () Int Int)",
            "byte 22: `Int`, expected a closing parenthesis",
        ),
        ("(assert)", "byte 7: a closing parenthesis, expected a term"),
        (
            "(assert true false)",
            "byte 13: `false`, expected a closing parenthesis",
        ),
        ("(assert -5)", "byte 8: `-5` is not declared"),
    ]);
}

#[test]
fn what_is_no_command() {
    are_bad(&[
        (
            "(check-sat",
            "byte 10: the end, expected a closing parenthesis",
        ),
        (
            "(check-sat))",
            "byte 11: a closing parenthesis, expected a command",
        ),
        ("(check-sat) x", "byte 12: `x`, expected a command"),
        (
            "(check-sat 1)",
            "byte 11: `1`, expected a closing parenthesis",
        ),
        ("(check-sat)\0", "byte 11: `\\x00` begins no token"),
        (
            "(get-model 1)",
            "byte 11: `1`, expected a closing parenthesis",
        ),
        (
            "()",
            "byte 1: a closing parenthesis, expected the name of a command",
        ),
        (
            "(checksat)",
            "byte 1: `checksat`, expected the name of a command",
        ),
        (
            "(|push| 1)",
            "byte 1: `push`, expected the name of a command",
        ),
        (
            "(let 1)",
            "byte 1: the reserved word `let`, expected a command that is known here",
        ),
        (
            "(exit)",
            "byte 1: the reserved word `exit`, expected a command that is known here",
        ),
        (
            "((push 1))",
            "byte 1: an opening parenthesis, expected the name of a command",
        ),
    ]);
}

/// A refused command leaves everything; those before it count.
#[test]
fn a_refused_command_changes_nothing() {
    let asserted = "(assert (< x 0))";
    let mut reader = Reader::default();
    for refused in [
        "(declare-fun x () Int",
        "(declare-fun x () Int 1)",
        "(push 1 1)",
    ] {
        assert!(reader.read(refused.as_bytes()).is_err());
        assert!(reader.read(asserted.as_bytes()).is_err());
        assert!(reader.read(b"(pop 1)").is_err());
    }
    assert!(reader.read(b"(declare-fun x () Int)(push)").is_err());
    assert_eq!(reader.read(asserted.as_bytes()), Ok(1));
}

/// Without resolving names, only what is no command is refused.
#[test]
fn the_grammar_alone() {
    let mut reader = Reader::default();
    reader.read_grammar_alone();
    let names = "(declare-sort |red 40| 0)(declare-sort Bool 0)(declare-fun @a () T)\
                 (declare-fun @a (|red 40|) ||)(push 1)(declare-fun and () Int)\
                 (assert (@a and 5 (none @a)))(pop 1)";
    assert_eq!(reader.read(names.as_bytes()), Ok(8));
    let declared: Vec<Vec<u8>> = ["@a", "@a", "and"].map(Into::into).to_vec();
    assert_eq!(reader.functions, declared);
    let declared: Vec<Vec<u8>> = ["red 40", "Bool"].map(Into::into).to_vec();
    assert_eq!(reader.sorts, declared);
    for bad in [
        "(declare-sort red 40 0)",
        "(declare-sort let 0)",
        "(declare-fun 5 () Int)",
        "(declare-fun |a () Int)",
        "(declare-fun |a\\| () Int)",
        "(declare-fun  () Int)",
        "(assert (let 1))",
        "(assert ())",
        "(pop 1)",
    ] {
        assert!(reader.read(bad.as_bytes()).is_err(), "{bad}");
    }
    assert_eq!(reader.functions.len(), 3);
}
