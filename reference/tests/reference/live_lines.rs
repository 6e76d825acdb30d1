//! The reader of live lines alone, and what is wrong with lines by themselves.

use leskofar_reference::live_lines::{Command, Line, LiveLines, Unheard};
use leskofar_reference::strangers::{breaches_of_lines, Breach};

fn heard(text: &str) -> Result<LiveLines, Unheard> {
    let mut live = LiveLines::default();
    live.hear(text.as_bytes()).map(|()| live)
}

fn sort(name: &str) -> Command {
    Command::DeclareSort(name.into())
}

fn fun(name: &str) -> Command {
    Command::DeclareFun(name.into())
}

/// What the lines of a text do, each with its number and level.
fn commands(text: &str) -> Result<Vec<(usize, usize, Command)>, Unheard> {
    let lines = heard(text)?.lines().to_vec();
    let parts = |line: Line| (line.number, line.level, line.command);
    Ok(lines.into_iter().map(parts).collect())
}

#[test]
fn lines_come_and_go_and_keep_their_numbers() {
    assert_eq!(commands(""), Ok(vec![]));
    let text = "(declare-sort T 0)\n(push 1)\n(declare-fun x () T)\n(push 1)\n(assert x)\n\
                (check-sat)\n(get-model)\n(pop 1)\n(assert (not x))\n(push 1)\n(assert true)\n";
    let live = vec![
        (1, 0, sort("T")),
        (3, 1, fun("x")),
        (9, 1, Command::Assert),
        (11, 2, Command::Assert),
    ];
    assert_eq!(commands(text), Ok(live));
    let live = heard(text).expect("heard");
    assert_eq!(live.levels(), 3);
    let texts: Vec<&[u8]> = live.at(1).map(|line| &line.text[..]).collect();
    assert_eq!(texts, [&b"(declare-fun x () T)"[..], b"(assert (not x))"]);
}

/// A text in two parts is the same text.
#[test]
fn a_text_goes_on() {
    let mut live = heard("(push 1)\n(assert a)\n").expect("heard");
    live.hear(b"").expect("heard");
    live.hear(b"(push 1)\n(pop 1)\n(assert b)\n")
        .expect("heard");
    let numbers: Vec<usize> = live.lines().iter().map(|line| line.number).collect();
    assert_eq!((numbers, live.levels()), (vec![2, 5], 2));
}

#[test]
fn names_between_bars() {
    let names = [
        ("(declare-sort T 0)", sort("T")),
        ("(declare-sort |T| 0)", sort("T")),
        ("(declare-sort |let 0)| 0)", sort("let 0)")),
        ("(declare-fun x () Int)", fun("x")),
        ("(declare-fun f (Int |red 40|) T)", fun("f")),
        ("(declare-fun |red 40| () Int)", fun("red 40")),
        ("(declare-fun |a:b:(c d)| (|e f|) T)", fun("a:b:(c d)")),
        ("(declare-fun || () Int)", fun("")),
        ("(declare-fun | | () Int)", fun(" ")),
        ("(declare-fun |(assert x)| () Int)", fun("(assert x)")),
        ("(assert (declare-fun x () Int))", Command::Assert),
    ];
    for (line, command) in names {
        let text = format!("{line}\n");
        assert_eq!(commands(&text), Ok(vec![(1, 0, command)]), "{line}");
    }
}

#[test]
fn text_that_no_session_sends() {
    let texts = [
        ("(push 1)", Unheard::NoLineEnd(1)),
        ("(pop 1)\n", Unheard::NothingToPop(1)),
        ("(push 1)\n(pop 1)\n(pop 1)\n", Unheard::NothingToPop(3)),
        ("(push 1)\n\n", Unheard::NoCommand(2)),
        ("(push 2)\n", Unheard::NoCommand(1)),
        ("(declare-sort T 1)\n", Unheard::NoCommand(1)),
        ("(declare-sort T)\n", Unheard::NoCommand(1)),
        ("(declare-sort |T 0)\n", Unheard::NoCommand(1)),
        ("(declare-fun x)\n", Unheard::NoCommand(1)),
        ("(declare-fun x Int)\n", Unheard::NoCommand(1)),
        ("(declare-fun |x|y () Int)\n", Unheard::NoCommand(1)),
        ("(declare-const x Int)\n", Unheard::NoCommand(1)),
        ("(assert x\n", Unheard::NoCommand(1)),
    ];
    for (text, unheard) in texts {
        assert_eq!(commands(text), Err(unheard), "{text}");
    }
}

/// No text has such lines: they are made here.
#[test]
fn numbers_and_levels_rise() {
    let lines = |places: &[(usize, usize)]| -> Vec<Line> {
        let line = |(number, level): &(usize, usize)| Line {
            number: *number,
            level: *level,
            command: Command::Assert,
            text: vec![],
        };
        places.iter().map(line).collect()
    };
    let order = |line, next| vec![Breach::Order { line, next }];
    let rising = lines(&[(1, 0), (2, 0), (5, 2), (9, 2)]);
    assert_eq!(breaches_of_lines(&rising), []);
    assert_eq!(breaches_of_lines(&lines(&[(2, 0), (2, 0)])), order(2, 2));
    assert_eq!(breaches_of_lines(&lines(&[(3, 0), (2, 1)])), order(3, 2));
    assert_eq!(breaches_of_lines(&lines(&[(3, 1), (4, 0)])), order(3, 4));
}

#[test]
fn built_in_sorts_are_not_declared() {
    let breaches = |text: &str| breaches_of_lines(heard(text).expect("heard").lines());
    assert_eq!(breaches("(declare-sort int 0)\n"), []);
    assert_eq!(breaches("(declare-fun Int () Int)\n"), []);
    assert_eq!(breaches("(push 1)\n(declare-sort Int 0)\n(pop 1)\n"), []);
    for name in ["Bool", "Int", "|Int|"] {
        let text = format!("(push 1)\n(declare-sort {name} 0)\n");
        assert_eq!(breaches(&text), [Breach::BuiltInSort { declaration: 2 }]);
    }
}
