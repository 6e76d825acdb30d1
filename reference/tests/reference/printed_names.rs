//! Names in the script, byte for byte: what is declared goes as a symbol, what
//! is the solver's own goes raw, and so does what people read.

use crate::desk::{buffer, Desk};
use crate::examples::printed_with;
use crate::listing::listed;
use leskofar_reference::book::{kind, Section, BOOL, INT};
use leskofar_reference::book_test::SCRATCH_SIZE;
use leskofar_reference::maker::Maker;
use leskofar_reference::refusal::TOO_LONG;
use leskofar_reference::smtlib::words::RESERVED;
use leskofar_reference::{print, trace};

/// A book in which every kind of name stands in every place, its node and a
/// goal there.
struct Yarns {
    maker: Maker,
    node: u32,
    goal: u32,
}

fn yarns() -> Yarns {
    let mut m = Maker::default();
    let yarn = m.user_type("red 40");
    let quoted = m.user_type("|as is|");
    let thread = m.constant("dark thread", yarn);
    let x = m.constant("let", INT);
    let dye = m.function("dye of", &[yarn, quoted, BOOL], INT);
    let five = m.function("5", &[], quoted);

    let args = [
        m.literal("dark red", yarn),
        m.apply(five, &[]),
        m.literal("", BOOL),
    ];
    let args = [m.apply(dye, &args), m.id(x)];
    let premise = m.built_in("is below", &args);
    let node = m.traced_context(0, premise, "red 40: |first| step");

    let hint = m.id(thread);
    let pattern = m.pattern(&[hint]);
    let [rhs, body] = [m.integer(-5), m.id(x)];
    let bound = m.let_expr(x, rhs, body);
    let goal = m.quantifier(true, &[thread, x], &[pattern], bound);
    Yarns {
        maker: m,
        node,
        goal,
    }
}

const MOVED: &str = "(push 1)
(declare-sort |red 40| 0)
(declare-sort |as is| 0)
(declare-fun |dye of| (|red 40| |as is| Bool) Int)
(declare-fun |dark red:red 40| () |red 40|)
(declare-fun |5| () |as is|)
(declare-fun |:bool| () Bool)
(declare-fun |let| () Int)
(assert (is below (|dye of| |dark red:red 40| |5| |:bool|) |let|))
";
const GOAL: &str = "(forall ((|dark thread| |red 40|) (|let| Int)) \
    (! (let ((|let| (- 5))) |let|) :pattern (|dark thread|)))";

#[test]
fn move_ask_and_print() {
    let Yarns { maker, node, goal } = yarns();
    let mut desk = Desk::new(&maker);
    assert_eq!(desk.move_to(node).as_deref(), Ok(MOVED));
    let asked = format!("(push 1)\n(push 1)\n(assert (not {GOAL}))\n(check-sat)\n");
    assert_eq!(desk.ask(node, goal), Ok(asked));
    assert_eq!(printed_with(&maker, goal, 0, false, 0), GOAL);
    let [_, premise, _] = maker.contexts[0];
    let lines = "(is below\n  (|dye of|\n    |dark red:red 40|\n    |5|\n    |:bool|)\n  |let|)";
    assert_eq!(printed_with(&maker, premise, 0, true, 0), lines);
}

/// The same book for people: no bar but the trace's own and the type's.
#[test]
fn listing_and_trace_are_raw() {
    let Yarns { maker, node, goal } = yarns();
    let expected = "----- Proof obligation:
  is below(dye of(dark red:red 40, 5(), :bool), let)
  |-
  (forall dark thread: red 40, let: int pattern dark thread (val let: int := -5 let))
";
    assert_eq!(listed(&maker, node, goal), expected);
    let mut text = buffer(expected.len());
    let length = trace(&maker.book(), &mut [0; SCRATCH_SIZE], node, &mut text);
    let expected = "  red 40: |first| step\n";
    assert_eq!(length, Ok(expected.len()));
    assert_eq!(&text[..expected.len()], expected.as_bytes());
}

/// Where bars are added they are measured: a buffer of just the text, and one
/// less.
#[test]
fn bars_are_measured() {
    let Yarns { maker, node, goal } = yarns();
    let mut desk = Desk::new(&maker);
    desk.text_size = MOVED.len() - 1;
    assert_eq!(desk.move_to(node), Err(TOO_LONG));
    desk.text_size = MOVED.len();
    assert_eq!(desk.move_to(node).as_deref(), Ok(MOVED));
    let asked = format!("(push 1)\n(push 1)\n(assert (not {GOAL}))\n(check-sat)\n");
    desk.text_size = asked.len() - 1;
    assert_eq!(desk.ask(node, goal), Err(TOO_LONG));
    desk.text_size = asked.len();
    assert_eq!(desk.ask(node, goal), Ok(asked));
    let book = maker.book();
    for (room, answer) in [
        (GOAL.len() - 1, Err(TOO_LONG)),
        (GOAL.len(), Ok(GOAL.len())),
        (GOAL.len() + 1, Ok(GOAL.len())),
    ] {
        let mut text = buffer(room);
        let printed = print(&book, &mut [0; SCRATCH_SIZE], goal, 0, false, 0, &mut text);
        assert_eq!(printed, answer);
        if answer.is_err() {
            assert_eq!(text, buffer(room));
        }
    }
}

/// An operator's name is the solver's: whatever it holds it goes as it is.
#[test]
fn operators_are_raw() {
    let mut m = Maker::default();
    let long = "|".repeat(900);
    for name in [
        "let",
        "a b",
        "|",
        "\\",
        "|a",
        "40",
        "|a|b|",
        " ",
        long.as_str(),
    ] {
        let bare = m.built_in(name, &[]);
        assert_eq!(printed_with(&m, bare, 0, false, 0).as_str(), name);
        if name != long {
            let one = [m.boolean(true)];
            let applied = m.built_in(name, &one);
            assert_eq!(
                printed_with(&m, applied, 0, false, 0),
                format!("({name} true)")
            );
        }
    }
    let one = [m.boolean(true)];
    let nameless = m.built_in("", &one);
    assert_eq!(printed_with(&m, nameless, 0, false, 0), "(() true)");
    let nameless = m.built_in("", &[]);
    assert_eq!(printed_with(&m, nameless, 0, false, 0), "()");
}

/// One name that a type, a constant, a function, an operator and a literal have.
#[test]
fn one_name_in_every_place() {
    let mut m = Maker::default();
    let name = m.name("red 40");
    m.types.push([name]);
    let typ = 2;
    m.constants.push([name, typ]);
    m.functions.push([name, typ, 0, 0, 0, 0]);
    let id = m.id(0);
    let applied = m.apply(0, &[id]);
    let literal = m.term(kind::CUSTOM_LITERAL, [name, typ]);
    let [start, count] = m.list(&[applied, literal]);
    let goal = m.term(kind::BUILT_IN, [name, start, count]);
    let printed = "(red 40 (|red 40| |red 40|) |red 40:red 40|)";
    assert_eq!(printed_with(&m, goal, 0, false, 0), printed);
    let asked = format!(
        "(push 1)\n(declare-sort |red 40| 0)\n(declare-fun |red 40| () |red 40|)\n\
         (declare-fun |red 40| () |red 40|)\n(declare-fun |red 40:red 40| () |red 40|)\n\
         (push 1)\n(assert (not {printed}))\n(check-sat)\n"
    );
    assert_eq!(Desk::new(&m).ask(0, goal), Ok(asked));
}

/// The built-in types are words of the script, and other words in a literal.
#[test]
fn literals_of_the_built_in_types() {
    let mut m = Maker::default();
    let args = [m.literal("on or off", BOOL), m.literal("40", INT)];
    let goal = m.built_in("=", &args);
    let asked = "(push 1)\n(declare-fun |on or off:bool| () Bool)\n\
                 (declare-fun |40:int| () Int)\n(push 1)\n\
                 (assert (not (= |on or off:bool| |40:int|)))\n(check-sat)\n";
    assert_eq!(Desk::new(&m).ask(0, goal).as_deref(), Ok(asked));
}

/// Literals are one where their whole names are, wherever the colon stands, and
/// the number for `%tag` counts them once; a type with bars may have a `%tag`.
#[test]
fn literals_compare_by_their_raw_names() {
    let mut m = Maker::default();
    let [c, bc, barred] = ["c", "b:c", "|b c|"].map(|name| m.user_type(name));
    let args = [
        m.literal("a:b", c),
        m.literal("a", bc),
        m.literal("%tag", barred),
    ];
    let goal = m.built_in("p", &args);
    let asked = "(push 1)\n(declare-sort c 0)\n(declare-fun |a:b:c| () c)\n(push 1)\n\
                 (assert (not (p |a:b:c| |a:b:c| 2)))\n(check-sat)\n";
    assert_eq!(Desk::new(&m).ask(0, goal).as_deref(), Ok(asked));
}

#[test]
fn reserved_words_are_declared_between_bars() {
    for word in RESERVED {
        let mut m = Maker::default();
        let typ = m.user_type(word);
        let f = m.function(word, &[typ], typ);
        let c = m.constant(word, typ);
        let args = [m.id(c)];
        let args = [m.apply(f, &args)];
        let goal = m.built_in(word, &args);
        let asked = format!(
            "(push 1)\n(declare-sort |{word}| 0)\n(declare-fun |{word}| (|{word}|) |{word}|)\n\
             (declare-fun |{word}| () |{word}|)\n(push 1)\n\
             (assert (not ({word} (|{word}| |{word}|))))\n(check-sat)\n"
        );
        assert_eq!(Desk::new(&m).ask(0, goal), Ok(asked));
    }
}

/// All letters of a book in one name, with bars and without.
#[test]
fn the_longest_name() {
    let most = Section::Letters.most();
    for (last, bars) in [('a', ""), (' ', "|")] {
        let mut name = "a".repeat(most - 1);
        name.push(last);
        let mut m = Maker::default();
        let typ = m.user_type(&name);
        let number = m.types[0][0];
        m.constants.push([number, typ]);
        let goal = m.id(0);
        let symbol = format!("{bars}{name}{bars}");
        let asked = format!(
            "(push 1)\n(declare-sort {symbol} 0)\n(declare-fun {symbol} () {symbol})\n(push 1)\n\
             (assert (not {symbol}))\n(check-sat)\n"
        );
        let mut desk = Desk::new(&m);
        desk.text_size = asked.len() - 1;
        assert_eq!(desk.ask(0, goal), Err(TOO_LONG));
        desk.text_size = asked.len();
        assert_eq!(desk.ask(0, goal), Ok(asked));
    }
}
