//! Sorts and numbers of arguments: each operator, each kind of term, and what
//! the errors say.

use crate::bad_texts::error;
use leskofar_reference::book::{BOOL, INT};
use leskofar_reference::maker::Maker;
use leskofar_reference::plan::{check_book, read, Complaint, Options};

/// A constant of each sort, and one of no known sort.
const DECLARED: &str = "(type S) (type T) (constant b Bool) (constant i Int) (constant s S)
(constant t T) (function f (Int S) Bool) (function g () Int) (function h (Bool) S)\n";
const OF_ANY_SORT: &str = "(builtin \"anything\")";

/// Each operator, what it gives, and rows of arguments by the sorts' letters:
/// those that are right and those that are wrong; `*` is any sort, `.` none.
const OPERATORS: &str = "
= b ~ bb ii ss tt bbb iiii *i i* ** s*s *** ~ . b i * bi ib st is b*i *bs iib bbi
distinct b ~ bb ii ss iii *s b* ~ . i * bi st iis i*b
=> b ~ bb bbb *b b* ** bbbb ~ . b * bi ib sb ii bbi
and b ~ bb bbb *b ** bbbbb ~ . b * bi ib ss ii bib
or b ~ bb bbb b* ~ . b * bi ib tt bbi
xor b ~ bb bbb ** ~ . b * bi ib ii
not b ~ b * ~ . i s bb bbb bi **
< b ~ ii iii i* *i iiii ~ . i * ib bi ss iib bb
<= b ~ ii iii ** ~ . i * ib bi ts bii
> b ~ ii iii *i ~ . i * ib bi ss bb
>= b ~ ii iii i* ~ . i * ib bi ss ibi
+ i ~ ii iii i* iiiii ~ . i * ib bi ss iib bb
* i ~ ii iii *i ~ . i * ib bi ss bii
div i ~ ii iii ** ~ . i * ib bi ss
- i ~ i ii iii * i* iiii ~ . b s ib bi iis
mod i ~ ii i* ** ~ . i * iii ib bi iiii
abs i ~ i * ~ . b s ii iii **
";

fn is_taken(items: &str) -> bool {
    let text = format!("{DECLARED}{items}");
    match read(text.as_bytes(), Options::default()) {
        Ok(_) => true,
        Err(error) => {
            let raw_sorts = Options {
                raw_sorts: true,
                ..Options::default()
            };
            let plan = read(text.as_bytes(), raw_sorts).expect("only sorts are wrong");
            assert_eq!(plan.warnings, [error]);
            false
        }
    }
}

/// The application of an operator to constants of the sorts; by `builtin` it
/// may have none in parentheses too.
fn application(operator: &str, sorts: &str) -> String {
    let arg = |sort: char| match sort {
        '*' => format!(" {OF_ANY_SORT}"),
        sort => format!(" {sort}"),
    };
    let args: String = sorts.chars().filter(|sort| *sort != '.').map(arg).collect();
    match args.is_empty() {
        true => operator.into(),
        false => format!("({operator}{args})"),
    }
}

#[test]
fn operators() {
    let mut count = 0;
    for line in OPERATORS.lines().filter(|line| !line.is_empty()) {
        let parts: Vec<&str> = line.split(" ~ ").collect();
        let [head, right, wrong] = parts[..] else {
            panic!("no three parts: {line}");
        };
        let (operator, gives) = head.split_once(' ').expect("an operator and what it gives");
        for (rows, is_right) in [(right, true), (wrong, false)] {
            for row in rows.split(' ') {
                let applied = application(operator, row);
                let said = application(&format!("builtin \"{operator}\""), row);
                let barred = application(&format!("builtin \"|{operator}|\""), row);
                let said = [said, barred].map(|term| match row {
                    "." => format!("({term})"),
                    _ => term,
                });
                for term in [&applied, &said[0], &said[1]] {
                    assert_eq!(is_taken(&format!("(term x {term})")), is_right, "{term}");
                }
                let as_premise = is_taken(&format!("(node n root {applied})"));
                assert_eq!(as_premise, is_right && gives == "b", "{applied}");
                let as_number = is_taken(&format!("(term x (- {applied}))"));
                assert_eq!(as_number, is_right && gives == "i", "{applied}");
            }
        }
        count += 1;
    }
    assert_eq!(count, 17);
}

/// Other operators are not looked at, and what they give may be anything.
#[test]
fn other_operators() {
    for term in [
        "(builtin \"select\" b i s)",
        "(builtin \"ite\" i)",
        "(+ 1 (builtin \"bv2nat\" s))",
        "(and b (builtin \"is_int\" s))",
        "(f (builtin \"x\") (builtin \"y\"))",
        "(let ((s (builtin \"x\"))) s)",
        "(forall () (builtin \"x\"))",
        "(ite (builtin \"x\") i (builtin \"x\"))",
    ] {
        assert!(is_taken(&format!("(term x {term})")), "{term}");
    }
    assert!(is_taken("(node n root (builtin \"x\"))"));
    assert!(is_taken("(axiom a (builtin \"x\"))"));
    assert!(is_taken("(goal g root (builtin \"x\"))"));
    // But the known sort of a branch is that of the whole.
    assert!(is_taken("(term x (+ 1 (ite b (builtin \"x\") i)))"));
    assert!(!is_taken("(term x (+ 1 (ite b (builtin \"x\") s)))"));
    assert!(!is_taken("(term x (+ 1 (ite b s (builtin \"x\"))))"));
}

/// Terms, and whether their sorts are right.
const TERMS: [(&str, bool); 38] = [
    ("(f i s)", true),
    ("(f 1 (h true))", true),
    ("(f g (literal \"red\" S))", true),
    ("(f i)", false),
    ("(f i s s)", false),
    ("(f s i)", false),
    ("(f i t)", false),
    ("(f i b)", false),
    ("f", false),
    ("(g i)", false),
    ("(h (= i g))", true),
    ("(h g)", false),
    ("(= s (literal \"red\" S))", true),
    ("(= s (literal \"red\" T))", false),
    ("(= i (literal \"red\" Int))", true),
    ("(= b (literal \"red\" Int))", false),
    ("(= i %tag)", true),
    ("(= b %tag)", false),
    ("(literal \"%tag\" S)", false),
    ("(= i (literal \"%tag\" Int))", true),
    ("(ite b i 1)", true),
    ("(ite b s s)", true),
    ("(ite i i i)", false),
    ("(ite b i s)", false),
    ("(ite b s t)", false),
    ("(+ 1 (ite b i 1))", true),
    ("(+ 1 (ite b b true))", false),
    ("(let ((i 1)) s)", true),
    ("(let ((i b)) s)", false),
    ("(let ((s t)) s)", false),
    ("(+ 1 (let ((b true)) i))", true),
    ("(+ 1 (let ((i 1)) b))", false),
    ("(forall ((i Int)) b)", true),
    ("(exists ((i Int)) i)", false),
    ("(forall () i)", false),
    ("(forall ((i Int)) (! b :pattern (i s) :pattern ()))", true),
    ("(not (exists () b))", true),
    ("(+ 1 (exists () b))", false),
];

#[test]
fn every_kind_of_term() {
    for (term, is_right) in TERMS {
        assert_eq!(is_taken(&format!("(term x {term})")), is_right, "{term}");
    }
    for (sort, is_right) in [("b", true), ("i", false), ("s", false)] {
        assert_eq!(is_taken(&format!("(node n root {sort})")), is_right);
        assert_eq!(is_taken(&format!("(axiom a {sort})")), is_right);
        assert_eq!(is_taken(&format!("(goal g root {sort})")), is_right);
        assert_eq!(
            is_taken(&format!("(term x {sort})(goal g root x)")),
            is_right
        );
    }
    assert!(is_taken("(axiom a)"));
    // A pattern's own terms are looked at, but may have any sort.
    assert!(is_taken("(pattern p (i s b))"));
    assert!(!is_taken("(pattern p ((+ i s)))"));
}

/// The limit that slipped into the sum, which z3 takes as true.
#[test]
fn a_limit_in_the_sum() {
    let text = "(constant a Int) (constant b Int)\n(goal g root (<= (+ a b 3)))";
    let error = error(text);
    let message = "line 2, column 14: expected 2 or more arguments of `<=`, found 1";
    assert_eq!(error.to_string(), message);
}

/// Items behind the declared ones, and what is said of them.
const MESSAGES: [(&str, &str); 16] = [
    (
        "(term x (+ 1\n  (not i)))",
        "line 4, column 8: expected `Bool` as argument 1 of `not`, found `Int`",
    ),
    (
        "(term x (+ 1 b))",
        "line 3, column 14: expected `Int` as argument 2 of `+`, found `Bool`",
    ),
    (
        "(term x (= i 2\n(ite b s s)))",
        "line 4, column 1: expected `Int`, like argument 1 of `=`, found `S`",
    ),
    (
        "(term x (mod 1 2 3))",
        "line 3, column 9: expected 2 arguments of `mod`, found 3",
    ),
    (
        "(term x (abs 1 2))",
        "line 3, column 9: expected 1 argument of `abs`, found 2",
    ),
    (
        "(term x (- (f i)))",
        "line 3, column 12: expected 2 arguments of `f`, found 1",
    ),
    (
        "(term x (f i t))",
        "line 3, column 14: expected `S` as argument 2 of `f`, found `T`",
    ),
    (
        "(term x (ite i 1 2))",
        "line 3, column 14: expected `Bool` as the guard of `ite`, found `Int`",
    ),
    (
        "(term x (ite b 1 s))",
        "line 3, column 18: expected `Int`, like the other branch of `ite`, found `S`",
    ),
    (
        "(term x (let ((s 1)) b))",
        "line 3, column 18: expected `S`, the type of `s`, found `Int`",
    ),
    (
        "(term x (exists ((i Int)) 7))",
        "line 3, column 27: expected `Bool` as the body of `exists`, found `Int`",
    ),
    (
        "(term x (literal \"%tag\" S))",
        "line 3, column 9: expected `Int` as the type of `%tag`, found `S`",
    ),
    (
        "(node n root i)",
        "line 3, column 14: expected `Bool` as a node's premise, found `Int`",
    ),
    (
        "(axiom a s)",
        "line 3, column 10: expected `Bool` as an axiom, found `S`",
    ),
    (
        "(term x 7)(goal n root\n x)",
        "line 4, column 2: expected `Bool` as a goal, found `Int`",
    ),
    // Where a named term is used, not where it stands.
    (
        "(term x 7)\n(term y (not\n x))",
        "line 5, column 2: expected `Bool` as argument 1 of `not`, found `Int`",
    ),
];

#[test]
fn places_and_messages() {
    for (items, message) in MESSAGES {
        let error = error(&format!("{DECLARED}{items}"));
        assert_eq!(error.to_string(), message);
    }
}

fn complaints(maker: &Maker) -> Vec<String> {
    let complaints = check_book(&maker.book()).expect("the book passes");
    assert!(complaints.iter().all(Complaint::is_of_sorts));
    assert!(!complaints.iter().any(Complaint::is_of_names));
    complaints.iter().map(Complaint::to_string).collect()
}

/// A book's complaints, record by record; each has one.
#[test]
fn complaints_of_a_book() {
    let mut m = Maker::default();
    let [shade, _] = ["Shade", "|a b|"].map(|name| m.user_type(name));
    let x = m.constant("x", shade);
    let f = m.function("f", &[INT, shade], BOOL);
    let args = [m.id(x), m.boolean(true), m.boolean(false)];
    let sum = m.built_in("+", &args);
    let other = m.constant("y", shade + 1);
    let unlike = m.id(other);
    let pair = [sum, unlike];
    let applied = m.apply(f, &pair);
    let less = m.built_in("<", &[]);
    m.context(0, applied);
    let seven = m.integer(7);
    let node = m.context(1, seven);
    assert_eq!(node, 2);
    m.axiom(None, &[]);
    let red = m.literal("red", shade);
    m.axiom(Some(red), &[]);
    assert_eq!([sum, applied, less], [3, 5, 6]);
    let expected = [
        "term 3: expected `Int` as argument 1 of `+`, found `Shade`",
        "term 5: expected `Shade` as argument 2 of `f`, found `|a b|`",
        "term 6: expected 2 or more arguments of `<`, found 0",
        "node 2: expected `Bool` as a node's premise, found `Int`",
        "axiom 1: expected `Bool` as an axiom, found `Shade`",
    ];
    assert_eq!(complaints(&m), expected);
}
