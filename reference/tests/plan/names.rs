//! The rules of names: which can go to a solver, which are one token, and which
//! clash.

use crate::refused_names::UNSENDABLE;
use leskofar_reference::book::{BOOL, INT};
use leskofar_reference::maker::Maker;
use leskofar_reference::plan::{check_book, read, Complaint, Options, PlanError};

const RAW_NAMES: Options = Options {
    raw_names: true,
    raw_sorts: false,
};

/// The error of a plan whose names alone are wrong: with raw names it is a
/// warning.
fn error(text: &str) -> Option<PlanError> {
    let error = read(text.as_bytes(), Options::default()).err()?;
    let plan = read(text.as_bytes(), RAW_NAMES).expect(text);
    assert_eq!(plan.warnings, [error.clone()], "{text}");
    Some(error)
}

fn assert_verdicts(item: impl Fn(&str) -> String, good: &[&str], bad: &[(&str, &[&str])]) {
    for name in good {
        assert_eq!(error(&item(name)), None, "{name}");
    }
    for (expected, names) in bad {
        for name in *names {
            let error = error(&item(name)).expect(name);
            assert_eq!(error.expected, *expected, "{name}");
            let found = match *name {
                "" => "an empty name".into(),
                _ => format!("`{}`", name.replace("\"\"", "\"")),
            };
            let is_found = error.found == found || error.found.starts_with(&format!("{found}, "));
            assert!(is_found, "{name}: {error}");
        }
    }
}

/// What is a symbol only between bars.
const UNQUOTED: [&str; 13] = [
    " ", "a b", "1", "1a", "(", "a)", "a;b", "\"\"", ":k", "#x1", "5", "1.5", "red 40",
];
const NEGATIVE: [&str; 6] = ["-5", "|-5|", "-1.5", "|-1.50|", "-007", "|-0|"];
const NUMBERS_ALIKE: [&str; 5] = ["|5|", "|007|", "|1.50|", "|#xyz|", "|#b|"];
const RESERVED: [&str; 8] = [
    "let",
    "|let|",
    "par",
    "assert",
    "|check-sat|",
    "_",
    "!",
    "|exit|",
];
const SYMBOLS: [&str; 13] = [
    "a",
    "a1",
    "|a b|",
    "||",
    "| |",
    "|(|",
    "-",
    "-5a",
    "|5a|",
    "-1.",
    "|1.2.3|",
    "~!@$%^&*_-+=<>.?/",
    "|\"\"|",
];

#[test]
fn declared_names() {
    let no_number = "a name that does not look like a negative number";
    let bad: [(&str, &[&str]); 1] = [(no_number, &NEGATIVE)];
    // A minus alone is an operator.
    let good = [&SYMBOLS[..], &UNQUOTED, &NUMBERS_ALIKE, &RESERVED].concat();
    let symbols: Vec<&str> = good.iter().copied().filter(|name| *name != "-").collect();
    let typ = |name: &str| format!("(type x :name \"{name}\")");
    assert_verdicts(typ, &good, &bad);
    let constant = |name: &str| format!("(constant x Int :name \"{name}\")");
    assert_verdicts(constant, &symbols, &bad);
    let function = |name: &str| format!("(function x (Int) Int :name \"{name}\")");
    assert_verdicts(function, &symbols, &bad);
    // A plan's own name needs no `:name` to look like a number.
    let own = |name: &str| format!("(constant {name} Int)");
    let good = ["|a b|", "|0|", "|1.5|", "-5a"];
    assert_verdicts(own, &good, &[(no_number, &["|-5|", "|-1.5|"])]);
}

#[test]
fn built_in_operators() {
    let numbers = [
        "0", "10", "1.50", "0.0", "#xfF09", "#b0110", "-5", "|-5|", "|#xyz|", "true", "ite", "|=|",
    ];
    let good: Vec<&str> = SYMBOLS.iter().chain(&numbers).copied().collect();
    let no_tokens: Vec<&str> = UNSENDABLE
        .into_iter()
        .chain(UNQUOTED)
        .filter(|name| !["1", "#x1", "5", "1.5"].contains(name))
        .chain([
            "#x", "#b", "#b2", "#xg", "1.", ".5.(", "1.2.3", "00", "007", "01.5", "#", "-#x1",
        ])
        .collect();
    let item = |name: &str| match name {
        "-" => "(term x (- 1))".into(),
        "|=|" => "(term x (builtin \"|=|\" 1 1))".into(),
        _ => format!("(term x (builtin \"{name}\"))"),
    };
    let bad: [(&str, &[&str]); 2] = [
        ("a symbol or a number of SMT-LIB", &no_tokens),
        ("a name that SMT-LIB does not reserve", &RESERVED),
    ];
    assert_verdicts(item, &good, &bad);
}

#[test]
fn literals() {
    for (s, is_good) in [
        ("red", true),
        ("", true),
        ("let", true),
        ("dark blue", true),
        ("a:b", true),
        ("5", true),
        ("%tag", false),
        ("|", false),
        ("a|b", false),
        ("a\\b", false),
        ("%tag|", false),
    ] {
        let text = format!("(type S)(constant s S)(term t (= s (literal \"{s}\" S)))");
        let names = read(
            text.as_bytes(),
            Options {
                raw_sorts: true,
                ..Options::default()
            },
        );
        // `%tag` is never sent as a name, whatever its type.
        assert_eq!(names.is_ok(), is_good || s == "%tag", "{s}");
    }
    // A type's name may have spaces, and the plan's own goes without bars.
    let of = |typ: &str| format!("(type S :name \"{typ}\")\n(term t (literal \"wool\" S))");
    assert_eq!(error(&of("thread")), None);
    assert_eq!(error(&of("thread kind")), None);
    let own = "(type |red 40|)(term t (literal \"wool\" |red 40|))";
    assert_eq!(error(own), None);
}

/// Plans with a clash, and what is said of it.
const CLASHES: [(&str, &str); 15] = [
    (
        "(constant x Int)\n(constant y Int :name \"|x|\")",
        "line 2, column 23: expected a name of its own, found `|x|`, \
             the name of the constant at line 1, column 11",
    ),
    (
        "(function x () Int :name \"a b\")\n(constant |a b| Int :name \"y\")\n\
             (function z () Int :name \"y\")",
        "line 3, column 26: expected a name of its own, found `y`, \
             the name of the constant at line 2, column 27",
    ),
    (
        "(constant x Int :name \"a b\")\n(constant |a b| Int)",
        "line 2, column 11: expected a name of its own, found `a b`, \
             the name of the constant at line 1, column 23",
    ),
    (
        "(function z () Int :name \"y\")\n(constant y Int)",
        "line 1, column 26: expected a name of its own, found `y`, \
             the name of the constant at line 2, column 11",
    ),
    (
        "(type Shade)\n(constant |red:Shade| Shade)\n(term t (literal \"red\" Shade))",
        "line 3, column 9: expected a name of its own, found `|red:Shade|`, \
             the name of the constant at line 2, column 11",
    ),
    (
        "(function f () Int :name \"|red:int|\")\n(term t (= 1 (literal \"red\" Int)))",
        "line 2, column 14: expected a name of its own, found `|red:int|`, \
             the name of the function at line 1, column 26",
    ),
    (
        "(constant select Int)\n(term t (builtin \"select\" 1))",
        "line 2, column 9: expected a name of its own, found `select`, \
             the name of the constant at line 1, column 11",
    ),
    (
        "(constant x Int :name \"and\")",
        "line 1, column 23: expected a name of its own, found `and`, an operator",
    ),
    (
        "(constant x Int :name \"|true|\")",
        "line 1, column 23: expected a name of its own, found `|true|`, a word of terms",
    ),
    (
        "(type x :name \"Bool\")",
        "line 1, column 15: expected a name of its own, found `Bool`, a built-in type",
    ),
    (
        "(type x :name \"y\")(type |y|)",
        "line 1, column 25: expected a name of its own, found `y`, \
             the name of the type at line 1, column 15",
    ),
    (
        "(type S)(type |b:S|)(type T :name \"b:S\")\n(term t (literal \"a:b\" S))\n\
             (term u (literal \"a\" T))",
        "line 1, column 35: expected a name of its own, found `b:S`, \
             the name of the type at line 1, column 15",
    ),
    (
        "(type S)(type |b:S|)\n(term t (literal \"a:b\" S))\n(term u (literal \"a\" |b:S|))",
        "line 3, column 9: expected a name of its own, found `|a:b:S|`, \
             the name of the term at line 2, column 9",
    ),
    (
        "(term t (literal \"red\" Int))(term u (builtin \"|red:int|\"))",
        "line 1, column 37: expected a name of its own, found `|red:int|`, \
             the name of the term at line 1, column 9",
    ),
    (
        "(term u (builtin \"|red:int|\"))(term t (literal \"red\" Int))",
        "line 1, column 39: expected a name of its own, found `|red:int|`, \
             the name of the term at line 1, column 9",
    ),
];

/// Both places are named.
#[test]
fn clashes() {
    for (text, message) in CLASHES {
        assert_eq!(error(text).expect(text).to_string(), message);
    }
}

#[test]
fn every_word_and_operator_clashes() {
    const WORDS: &str = "true false ite = => and or not xor distinct < <= > >= + - * div mod abs";
    for word in WORDS.split(' ') {
        for name in [word.to_string(), format!("|{word}|")] {
            let constant = error(&format!("(constant x Int :name \"{name}\")"));
            let function = error(&format!("(function x () Int :name \"{name}\")"));
            assert!(constant.is_some() && function.is_some(), "{name}");
            let typ = error(&format!("(type x :name \"{name}\")"));
            assert_eq!(typ, None, "{name}");
        }
    }
}

/// What is no clash: spaces of their own, the same thing twice, traces.
#[test]
fn no_clashes() {
    for text in [
        "(type x)(constant y x :name \"x\")",
        "(type and)(type |true|)(type |x:int|)(constant |x:int| Int)",
        "(term a (literal \"r\" Int))(term b (literal \"r\" Int))(term c (literal \"r\" Bool))",
        "(term a (builtin \"f\"))(term b (builtin \"f\" 1))(term c (builtin \"|f|\" 2 3))",
        "(constant bool Int)(constant int Int)(type bool)(type int)",
        "(constant |%tag:int| Int)(term t (= %tag |%tag:int|))",
        "(constant x Int)(node n root true :trace \"x\")(node m root true :trace \"a b|\")",
        "(axiom |a b| true)(pattern |5| ())(node |-5| root true)(goal |let| root true)",
    ] {
        assert_eq!(error(text), None, "{text}");
    }
}

fn complaints(maker: &Maker) -> Vec<String> {
    let complaints = check_book(&maker.book()).expect("the book passes");
    assert!(complaints.iter().all(Complaint::is_of_names));
    assert!(!complaints.iter().any(Complaint::is_of_sorts));
    complaints.iter().map(Complaint::to_string).collect()
}

/// A book's complaints, record by record; each has one, whether used or not.
#[test]
fn complaints_of_a_book() {
    let mut m = Maker::default();
    let good = m.user_type("T");
    m.user_type("|T|");
    m.user_type("T");
    m.user_type("a b");
    m.user_type("|-5|");
    m.user_type("as");
    m.user_type("|a:b|");
    let [split, other_split] = ["c:d", "d"].map(|name| m.user_type(name));
    m.constant("x", INT);
    m.function("|x|", &[], BOOL);
    m.function("x", &[], BOOL);
    m.function("or", &[], BOOL);
    m.literal("red", good);
    m.boolean(true);
    m.literal("b", split);
    m.literal("b:c", other_split);
    m.literal("b", split);
    m.built_in("x", &[]);
    m.built_in("", &[]);
    m.literal("%tag", INT);
    let expected = [
        "type 3: expected a name of its own, found `|T|`, the name of type 2",
        "type 4: expected a name of its own, found `T`, the name of type 2",
        "type 6: expected a name that does not look like a negative number, found `|-5|`",
        "function 0: expected a name of its own, found `|x|`, the name of constant 0",
        "function 1: expected a name of its own, found `x`, the name of constant 0",
        "function 2: expected a name of its own, found `or`, an operator",
        "term 3: expected a name of its own, found `|b:c:d|`, the name of term 2",
        "term 4: expected a name of its own, found `|b:c:d|`, the name of term 3",
        "term 5: expected a name of its own, found `x`, the name of constant 0",
        "term 6: expected a symbol or a number of SMT-LIB, found an empty name",
    ];
    assert_eq!(complaints(&m), expected);
}
