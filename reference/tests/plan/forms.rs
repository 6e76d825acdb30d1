//! What each form of the text means: the book that somebody would make by
//! hand.

use leskofar_reference::book::{BOOL, INT};
use leskofar_reference::book_test::check;
use leskofar_reference::maker::Maker;
use leskofar_reference::plan::{read, Goal, Options, Plan};
use leskofar_reference::script;
use leskofar_reference::script::{ASK, MOVE};

/// The forms are tried by themselves, whatever the rules say of their names
/// and sorts.
fn plan(text: &str) -> Plan {
    read(text.as_bytes(), Options::RAW).unwrap_or_else(|error| panic!("{error}"))
}

/// The text's book holds the same program as the one made by hand.
fn assert_holds(text: &str, by_hand: &Maker) {
    let (book, by_hand) = (plan(text).maker.book(), by_hand.book());
    let held = check(&book).expect("a plan's book passes");
    assert_eq!(held, check(&by_hand).expect("the book passes"));
}

#[test]
fn nothing() {
    for text in ["", " \t\r\n", "; a comment", "; a comment\n;\n"] {
        assert_holds(text, &Maker::default());
    }
}

/// A name goes into the book without its bars, but where these would be missed.
#[test]
fn symbols_and_their_names() {
    let text = "
        (type Shade) (type T :name \"Shade\") (type |a b|) (type |abc|) (type ||)
        (constant x Int) (constant y Shade :name \"|y|\") (constant |x y| T)
        (constant z |a b| :name \"say \"\"z\"\"\")
        (function f () Bool) (function g (Int Shade T) abc :name \"f\")
        (constant |-5| Int) (function |-1.5| () Int) (constant -5a Int) (constant |40| Int)";
    let mut m = Maker::default();
    let types = ["Shade", "Shade", "a b", "abc", "||"].map(|name| m.user_type(name));
    m.constant("x", INT);
    m.constant("|y|", types[0]);
    m.constant("x y", types[1]);
    m.constant("say \"z\"", types[2]);
    m.function("f", &[], BOOL);
    m.function("f", &[INT, types[0], types[1]], types[3]);
    m.constant("|-5|", INT);
    m.function("|-1.5|", &[], INT);
    m.constant("|-5a|", INT);
    m.constant("40", INT);
    assert_holds(text, &m);
}

/// A literal may stand as it is printed; a name that is declared comes first.
#[test]
fn printed_literals() {
    let text = "
        (type S) (type |b:S| :name \"|b:S|\") (type T :name \"b:S\") (type U :name \"tint\")
        (constant |c:S| Int)
        (term a |red:S|) (term b |a:b:S|) (term c |:int|) (term d |a b:bool|) (term e |c:S|)
        (term f (= |red:S| |x:b:S|)) (term g |red:tint|)";
    let mut m = Maker::default();
    let s = m.user_type("S");
    m.user_type("|b:S|");
    m.user_type("b:S");
    let tint = m.user_type("tint");
    let constant = m.constant("c:S", INT);
    m.literal("red", s);
    m.literal("a:b", s);
    m.literal("", INT);
    m.literal("a b", BOOL);
    m.id(constant);
    let args = [m.literal("red", s), m.literal("x:b", s)];
    m.built_in("=", &args);
    m.literal("red", tint);
    assert_holds(text, &m);
}

#[test]
fn terms() {
    let text = "
        (type S) (constant x Int) (function f (Int) Int)
        (term a true) (term b false)
        (term c 9223372036854775807) (term d -9223372036854775808) (term e 0)
        (term g (literal \"red\" S)) (term h (literal \"\" Bool)) (term i %tag)
        (term j (literal \"%tag\" S)) (term k x) (term l f) (term m and)
        (term n (f x)) (term o (f x 1 2)) (term p (>= x 1))
        (term q (builtin \"ite\")) (term r (builtin \"no such\" x true))
        (term s (ite true x 1)) (term u (let ((x x)) x))";
    let mut m = Maker::default();
    let typ = m.user_type("S");
    let x = m.constant("x", INT);
    let f = m.function("f", &[INT], INT);
    m.boolean(true);
    m.boolean(false);
    m.integer(i64::MAX);
    m.integer(i64::MIN);
    m.integer(0);
    m.literal("red", typ);
    m.literal("", BOOL);
    m.literal("%tag", INT);
    m.literal("%tag", typ);
    m.id(x);
    m.apply(f, &[]);
    m.built_in("and", &[]);
    let args = [m.id(x)];
    m.apply(f, &args);
    let args = [m.id(x), m.integer(1), m.integer(2)];
    m.apply(f, &args);
    let args = [m.id(x), m.integer(1)];
    m.built_in(">=", &args);
    m.built_in("ite", &[]);
    let args = [m.id(x), m.boolean(true)];
    m.built_in("no such", &args);
    let [guard, thn, els] = [m.boolean(true), m.id(x), m.integer(1)];
    m.if_then_else(guard, thn, els);
    let [rhs, body] = [m.id(x), m.id(x)];
    m.let_expr(x, rhs, body);
    assert_holds(text, &m);
}

/// A body stands before its patterns, and the patterns are recorded just
/// before their quantifier.
#[test]
fn quantifiers() {
    let text = "
        (constant x Int) (constant y Bool)
        (term a (forall ((x Int) (y Bool) (x Int)) y))
        (term b (exists () true))
        (term c (forall ((x Int)) (! y :pattern (x 1) :pattern ())))
        (term d (exists ((x Int)) (!
          (forall ((y Bool)) (! y :pattern (2)))
          :pattern ((exists () (! true :pattern (3)))) :pattern (4))))";
    let mut m = Maker::default();
    let x = m.constant("x", INT);
    let y = m.constant("y", BOOL);
    let body = m.id(y);
    m.quantifier(true, &[x, y, x], &[], body);
    let body = m.boolean(true);
    m.quantifier(false, &[], &[], body);

    let body = m.id(y);
    let hints = [m.id(x), m.integer(1)];
    let patterns = [m.pattern(&hints), m.pattern(&[])];
    m.quantifier(true, &[x], &patterns, body);

    let [body, hint] = [m.id(y), m.integer(2)];
    let pattern = m.pattern(&[hint]);
    let first = m.quantifier(true, &[y], &[pattern], body);
    let [body, hint] = [m.boolean(true), m.integer(3)];
    let pattern = m.pattern(&[hint]);
    let second = m.quantifier(false, &[], &[pattern], body);
    let hint = m.integer(4);
    let patterns = [m.pattern(&[second]), m.pattern(&[hint])];
    m.quantifier(false, &[x], &patterns, first);
    assert_holds(text, &m);
}

/// Patterns in place and those that are items are numbered in one row.
#[test]
fn patterns_in_place_and_items() {
    let text = "
        (constant v Bool)
        (pattern first ())
        (term a (forall ((v Bool)) (! v :pattern (v))))
        (term hint v)
        (pattern third (hint (exists () (! v :pattern ()))))
        (term b (forall () (! v :pattern third :pattern (v) :pattern first :pattern last)))
        (pattern last ())";
    let mut m = Maker::default();
    let v = m.constant("v", BOOL);
    let first = m.pattern(&[]);
    let [body, hint] = [m.id(v), m.id(v)];
    let second = m.pattern(&[hint]);
    m.quantifier(true, &[v], &[second], body);
    let hint = m.id(v);
    let inner = m.pattern(&[]);
    let body = m.id(v);
    let exists = m.quantifier(false, &[], &[inner], body);
    let third = m.pattern(&[hint, exists]);
    let [body, hint] = [m.id(v), m.id(v)];
    let fourth = m.pattern(&[hint]);
    let last = m.pattern(&[]);
    m.quantifier(true, &[], &[third, fourth, first, last], body);
    assert_holds(text, &m);
}

/// Types, constants, functions, axioms and patterns may be used above their
/// items; the order of the items is the order of the records.
#[test]
fn names_known_in_the_whole_text() {
    let text = "
        (term hint 7)
        (axiom a1 (forall ((v S)) (! (f v) :pattern p1)) :explains (f g))
        (function g () S :explained-by (a1 a2 a1) :name \"G\")
        (axiom a2)
        (pattern p0 (hint hint))
        (function f (S) Bool :explained-by (a2))
        (term late 8)
        (pattern p1 ())
        (constant v S)
        (type S)";
    let mut m = Maker::default();
    let typ = m.user_type("S");
    let v = m.constant("v", typ);
    let hint = m.integer(7);
    let g = m.function("G", &[], typ);
    let f = m.function("f", &[typ], BOOL);
    let args = [m.id(v)];
    let body = m.apply(f, &args);
    m.pattern(&[hint, hint]);
    let listed = m.pattern(&[]);
    let axiom = m.quantifier(true, &[v], &[listed], body);
    let a1 = m.axiom(Some(axiom), &[f, g]);
    let a2 = m.axiom(None, &[]);
    m.explained_by(g, &[a1, a2, a1]);
    m.explained_by(f, &[a2]);
    m.integer(8);
    assert_holds(text, &m);
}

/// A named term stands once in the book, wherever its name is used.
#[test]
fn nodes_goals_and_named_terms() {
    let text = "
        (constant x Int)
        (node first root (< 0 x) :trace \"first\")
        (term nine 9)
        (term below (< x nine))
        (goal above first below)
        (node second first below)
        (node third first (= x 1) :trace \"\")
        (goal here second below)
        (goal |a child| third nine)
        (goal new root x)
        (pattern unlisted (nine below))";
    let mut m = Maker::default();
    let x = m.constant("x", INT);
    let args = [m.integer(0), m.id(x)];
    let positive = m.built_in("<", &args);
    let first = m.traced_context(0, positive, "first");
    let nine = m.integer(9);
    let args = [m.id(x), nine];
    let below = m.built_in("<", &args);
    m.context(first, below);
    let args = [m.id(x), m.integer(1)];
    let one = m.built_in("=", &args);
    m.traced_context(first, one, "");
    let new = m.id(x);
    m.pattern(&[nine, below]);
    assert_holds(text, &m);

    let goals = [
        ("above", 1, below),
        ("here", 2, below),
        ("a child", 3, nine),
        ("new", 0, new),
    ];
    let goals = goals.map(|(name, node, term)| Goal {
        name: name.into(),
        node,
        term,
    });
    assert_eq!(plan(text).goals, goals);
}

/// Names are stored once, and nothing that stands there already is stored
/// again.
#[test]
fn storage_is_shared() {
    let text = "
        (letters \"abcd\") (lists 1 0 1 4294967295)
        (constant bc Int) (constant x Int :name \"bc\") (constant c Int) (constant de Int)
        (function f (Int Bool) Int :name \"bc\") (function g (Bool Bool) Int :name \"bc\")";
    let maker = plan(text).maker;
    assert_eq!(maker.letters, b"abcdde");
    assert_eq!(maker.names, [[1, 2], [2, 1], [4, 2]]);
    assert_eq!(maker.lists, [1, 0, 1, u32::MAX, 0, 0]);
    assert_eq!(maker.functions[0], [0, INT, 0, 2, 0, 0]);
    assert_eq!(maker.functions[1], [0, INT, 4, 2, 0, 0]);
}

/// The session of document 01, from a plan's text.
#[test]
fn the_sample_session() {
    let plan = plan(
        "(constant x Int) (constant y Int) (constant z Int)
        (function f (Int) Int :explained-by (identity))
        (axiom identity (forall ((z Int)) (= (f z) z)) :explains (f))
        (node one root (< 0 x))
        (node two one (= y (f x)))
        (node three one (< x 9))
        (goal positive three (< 0 (f y)))",
    );
    let goal = &plan.goals[0];
    let book = plan.maker.book();
    let mut input = (book.len() as u32).to_le_bytes().to_vec();
    input.extend(&book);
    for number in [[MOVE, 2, 0], [MOVE, 3, 0], [ASK, goal.node, goal.term]].as_flattened() {
        input.extend(number.to_le_bytes());
    }
    let expected = "\
(push 1)
(declare-fun x () Int)
(assert (< 0 x))
(push 1)
(declare-fun y () Int)
(declare-fun f (Int) Int)
(assert (forall ((z Int)) (= (f z) z)))
(assert (= y (f x)))
(pop 1)
(push 1)
(assert (< x 9))
(push 1)
(declare-fun f (Int) Int)
(assert (forall ((z Int)) (= (f z) z)))
(declare-fun y () Int)
(push 1)
(assert (not (< 0 (f y))))
(check-sat)
(pop 1)
(pop 1)
";
    assert_eq!(String::from_utf8_lossy(&script(&input)), expected);
}
