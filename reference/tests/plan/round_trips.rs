//! Book to text to book: the same program.

use leskofar_reference::book::{kind, Section, BOOL, FIRST_USER_TYPE, INT, NO_TERM};
use leskofar_reference::book_test::check;
use leskofar_reference::maker::{sample, small, Maker};
use leskofar_reference::plan::{read, write, Options};
use leskofar_reference::random::Random;
use leskofar_reference::random_books::{random_book, Counts};
use leskofar_reference::refusal::{meaning, CONTENTS, DEPTH};

const SEED: u64 = 20_260_105;
/// Sizes of books, with how many are made of each.
const SIZES: [(usize, usize); 5] = [(1, 1_000), (3, 2_000), (12, 1_000), (60, 200), (400, 20)];
const BOOKS_AT_LIMITS: usize = 20;

/// Writes a book as text, reads it and compares the programs; gives the text.
pub fn round_trip(book: &[u8]) -> String {
    let text = write(book).expect("the book passes");
    let plan = match read(text.as_bytes(), Options::RAW) {
        Ok(plan) => plan,
        Err(error) => panic!("{error} in\n{text}"),
    };
    assert_eq!(plan.goals, []);
    let again = plan.maker.book();
    let before = check(book).expect("the book passes");
    let after = check(&again).expect("a plan's book passes");
    assert!(before == after, "{text}");
    assert_eq!(write(&again).as_deref(), Ok(text.as_str()));
    text
}

#[test]
fn random_books() {
    let mut random = Random::new(SEED);
    for (size, many) in SIZES {
        for _ in 0..many {
            let counts = Counts::random(&mut random, size);
            round_trip(&random_book(&mut random, counts).book());
        }
    }
    for _ in 0..BOOKS_AT_LIMITS {
        round_trip(&random_book(&mut random, Counts::limits()).book());
    }
}

#[test]
fn document_01s_books() {
    round_trip(&Maker::default().book());
    round_trip(&small().maker.book());
    let text = round_trip(&sample().maker.book());
    let expected = "\
(constant x Int)
(constant y Int)
(constant z Int)

(function f (Int) Int :explained-by (a0))

(axiom a0 (forall ((z Int)) (= (f z) z)) :explains (f))
(node n1 root (< 0 x))
(term t8 x)
(node n2 n1 (= y (f t8)))
(node n3 n1 (< x 9))
(term t15 y)
(term t18 (< 0 (f t15)))
";
    assert_eq!(text, expected);
}

/// Names that are no simple symbols, or those of others, or words of the form.
const ODD_NAMES: [&str; 28] = [
    " ", "a b", "a", "a", "\"", "\"\"x", ";", "(", ":k", "5", "-5", "-5a", "-", "true", "let",
    "and", "%tag", "root", "Int", "Bool", "c0", "f1", "t2", "t2_", "T0", "builtin", "!", "red 40",
];
/// Those with bars, which no literal has in its name.
const BARRED_NAMES: [&str; 8] = [
    "||", "|a|", "|a b|", "|-5|", "|-5a|", "|true|", "|let|", "|red 40|",
];
/// Those that only operators and traces have.
const UNSENDABLE: [&str; 4] = ["", "|", "|a\\b|", "\\"];

#[test]
fn odd_names() {
    let mut m = Maker::default();
    for name in BARRED_NAMES.into_iter().chain(ODD_NAMES) {
        let typ = m.user_type(name);
        m.constant(name, typ);
        m.function(name, &[typ, BOOL], typ);
    }
    let types = BARRED_NAMES.len() as u32 + FIRST_USER_TYPE;
    for (typ, name) in (types..).zip(ODD_NAMES) {
        m.literal(name, typ);
    }
    m.literal("", INT);
    for name in UNSENDABLE.into_iter().chain(BARRED_NAMES).chain(ODD_NAMES) {
        let literal = m.literal("%tag", FIRST_USER_TYPE);
        let applied = m.built_in(name, &[literal]);
        m.traced_context(0, applied, name);
        m.built_in(name, &[]);
    }
    for constant in 0..m.constants.len() as u32 {
        m.id(constant);
        m.apply(constant, &[]);
    }
    let text = round_trip(&m.book());
    // The first of two that stand for one symbol is called by it.
    assert!(
        text.contains("\n(constant |a b| |a b| :name \"|a b|\")"),
        "{text}"
    );
    assert!(text.contains(" :name \"a b\")"), "{text}");
    assert!(text.contains("\n(type |-5|)\n"), "{text}");
    assert!(text.contains(" :name \"\"\"\"\"x\""), "{text}");
}

/// Terms, axioms, nodes and patterns whose orders are all against each other.
#[test]
fn odd_orders() {
    let mut m = Maker::default();
    let v = m.constant("v", INT);
    let terms: Vec<u32> = (0..12).map(|x| m.integer(x)).collect();
    let late = m.pattern(&[terms[3], terms[2]]);
    let early = m.pattern(&[terms[1]]);
    let empty = m.pattern(&[]);
    let unlisted = m.pattern(&[terms[11], terms[11], terms[8]]);
    m.quantifier(true, &[v, v], &[empty, early, empty], terms[5]);
    m.quantifier(false, &[], &[late], terms[4]);
    m.axiom(None, &[]);
    m.axiom(Some(terms[10]), &[]);
    m.axiom(Some(terms[6]), &[]);
    let node = m.context(0, terms[9]);
    m.context(node, terms[8]);
    m.context(node, terms[7]);
    m.lists[m.patterns[unlisted as usize][0] as usize] = m.terms.len() as u32 - 1;
    let text = round_trip(&m.book());
    assert!(text.contains("(forall ((v Int) (v Int)) (! t5 :pattern p2 :pattern p1 :pattern p2))"));
}

/// Unlisted patterns behind those that stand in place.
#[test]
fn patterns_in_place_and_others() {
    let mut m = Maker::default();
    let v = m.constant("v", BOOL);
    let body = m.id(v);
    let hint = m.id(v);
    let listed = m.pattern(&[hint]);
    let quantifier = m.quantifier(true, &[v], &[listed], body);
    m.pattern(&[quantifier, quantifier]);
    let text = round_trip(&m.book());
    assert!(
        text.contains("(term t2 (forall ((v Bool)) (! v :pattern (v))))"),
        "{text}"
    );
    assert!(text.ends_with("(pattern p1 (t2 t2))\n"), "{text}");
}

/// Names and ranges that keep the limits only because they overlap.
#[test]
fn overlapping_names_and_ranges() {
    const MANY: u32 = 100;
    let letters = Section::Letters.most() as u32;
    let lists = Section::Lists.most() as u32;
    let mut m = Maker {
        letters: (0..letters).map(|at| b'a' + (at % 3) as u8).collect(),
        names: (0..MANY).map(|at| [at, letters - 2 * at]).collect(),
        lists: (0..lists).map(|at| at % 2).collect(),
        ..Maker::default()
    };
    for at in 0..MANY {
        m.constants.push([at, INT]);
        m.functions.push([at, BOOL, at, lists - at, 0, at]);
        m.axioms.push([NO_TERM, 0, lists]);
    }
    let body = m.boolean(true);
    m.term(kind::QUANTIFIER, [1, 0, lists, 0, 0, body]);
    let text = round_trip(&m.book());
    assert!(text.starts_with("(letters\n"), "{text}");
    assert!(text.contains("\n(lists 0 1 0 1 "), "{text}");
}

/// As deep as terms can nest; the stack of a test holds it.
#[test]
fn deep_terms() {
    let mut m = Maker::default();
    let v = m.constant("v", BOOL);
    let mut term = m.boolean(true);
    while m.terms.len() < Section::Terms.most() {
        term = m.quantifier(true, &[v], &[], term);
    }
    round_trip(&m.book());

    let mut m = Maker::default();
    let v = m.constant("v", BOOL);
    let mut term = m.boolean(true);
    while m.terms.len() + 2 <= Section::Terms.most() {
        let body = m.id(v);
        term = m.let_expr(v, term, body);
    }
    round_trip(&m.book());
}

#[test]
fn a_refused_book_has_no_text() {
    let mut book = sample().maker.book();
    book.push(0);
    assert_eq!(write(&book), Err(CONTENTS));
    assert_eq!(write(&[]), Err(CONTENTS));
    for number in CONTENTS..DEPTH {
        assert_ne!(meaning(number), meaning(number + 1));
    }
}
