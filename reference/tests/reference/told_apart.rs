//! Which books are told apart: each clause by hand, and random books against
//! the same rule written pair by pair.

use leskofar_reference::book::{BOOL, INT};
use leskofar_reference::book_test::check;
use leskofar_reference::maker::{sample, small, Maker};
use leskofar_reference::program::{Program, RExpr, ROperator, SType};
use leskofar_reference::random::Random;
use leskofar_reference::random_books::{random_book, Counts};
use leskofar_reference::told_apart::{does_print_apart, prints_apart, told_apart};

const SEED: u64 = 0xA10;
/// Random books, and how large they are.
const BOOKS: usize = 20_000;
const SIZES: [usize; 3] = [1, 2, 4];

fn is_told_apart(make: impl FnOnce(&mut Maker)) -> bool {
    let mut m = Maker::default();
    make(&mut m);
    told_apart(&check(&m.book()).expect("a good book"))
}

#[test]
fn a_refused_book_does_not_print_apart() {
    let mut m = Maker::default();
    m.constant("x", INT);
    assert!(does_print_apart(&m.book()));
    m.constant("x|", INT);
    assert!(!does_print_apart(&m.book()));
}

#[test]
fn the_books_of_document_01() {
    assert!(is_told_apart(|_| {}));
    assert!(is_told_apart(|m| *m = sample().maker));
    assert!(is_told_apart(|m| *m = small().maker));
}

#[test]
fn constants_and_functions_of_one_name() {
    let constants = |names: [&str; 2]| is_told_apart(|m| _ = names.map(|n| m.constant(n, INT)));
    let functions =
        |names: [&str; 2]| is_told_apart(|m| _ = names.map(|name| m.function(name, &[INT], BOOL)));
    let both = |[constant, function]: [&str; 2]| {
        is_told_apart(|m| {
            m.constant(constant, INT);
            m.function(function, &[], INT);
        })
    };
    for names in [
        ["x", "x"],
        ["x", "|x|"],
        ["red 40", "|red 40|"],
        ["||", "||"],
    ] {
        assert!(!constants(names) && !functions(names) && !both(names));
    }
    for names in [
        ["x", "X"],
        ["x", "x "],
        ["red 40", "|red  40|"],
        ["||", "| |"],
    ] {
        assert!(constants(names) && functions(names) && both(names));
    }
}

#[test]
fn types_are_apart_from_the_rest() {
    let types = |names: &[&str]| is_told_apart(|m| names.iter().for_each(|n| _ = m.user_type(n)));
    assert!(types(&["T", "U", "int", "bool", "INT", "|red 40|", "red"]));
    for names in [["T", "T"], ["T", "|T|"], ["T", "Int"], ["|Bool|", "T"]] {
        assert!(!types(&names));
    }
    assert!(is_told_apart(|m| {
        let typ = m.user_type("T");
        m.constant("T", typ);
        m.constant("Int", INT);
        m.function("Bool", &[], typ);
    }));
}

#[test]
fn literals_of_one_text_have_one_type() {
    // Told apart, and printing apart.
    let literals = |[first, second]: [(&str, &str); 2]| {
        let mut m = Maker::default();
        let names = ["c", "b:c", "int"];
        let types = names.map(|name| m.user_type(name));
        for (text, of) in [first, second] {
            let user = names.iter().zip(types).find(|(name, _)| **name == of);
            m.literal(text, user.map_or(INT, |(_, typ)| typ));
        }
        let book = m.book();
        let program = check(&book).expect("a good book");
        [told_apart(&program), prints_apart(&program)]
    };
    assert_eq!(literals([("a", "c"), ("a", "c")]), [true, true]);
    assert_eq!(literals([("a", "c"), ("b", "c")]), [true, true]);
    assert_eq!(literals([("a", "c"), ("b", "Int")]), [true, true]);
    assert_eq!(literals([("%tag", "c"), ("%tag", "Int")]), [true, true]);
    // They print alike, and by one text of two types or by two texts.
    assert_eq!(literals([("a", "Int"), ("a", "int")]), [false, false]);
    assert_eq!(literals([("a:b", "c"), ("a", "b:c")]), [false, false]);
    // They print differently.
    assert_eq!(literals([("a", "c"), ("a", "Int")]), [false, true]);
    assert_eq!(literals([("", "c"), ("", "b:c")]), [false, true]);
}

#[test]
fn literals_beside_constants_and_functions() {
    for name in ["a:int", "|a:int|"] {
        assert!(!is_told_apart(|m| {
            m.constant(name, BOOL);
            m.literal("a", INT);
        }));
        assert!(!is_told_apart(|m| {
            m.function(name, &[], BOOL);
            m.literal("a", INT);
        }));
    }
    assert!(is_told_apart(|m| {
        m.constant("a", BOOL);
        m.constant("%tag:int", BOOL);
        m.literal("a", INT);
        m.literal("%tag", INT);
    }));
}

#[test]
fn operators_share_names_among_themselves_alone() {
    let with = |name: &str, operators: &[&str]| {
        is_told_apart(|m| {
            m.constant(name, INT);
            operators.iter().for_each(|name| _ = m.built_in(name, &[]));
        })
    };
    assert!(with("x", &["and", "and", "|and|", "", "()"]));
    assert!(with("and", &["or"]));
    for (name, operator) in [
        ("and", "and"),
        ("|and|", "and"),
        ("and", "|and|"),
        ("a b", "a b"),
        ("()", ""),
        ("|()|", ""),
        ("||", "||"),
    ] {
        assert!(!with(name, &["or", operator]), "{name} and {operator}");
    }
    assert!(!is_told_apart(|m| {
        m.literal("a", INT);
        m.built_in("|a:int|", &[]);
    }));
}

/// What prints in a book, with its name between bars or not.
#[derive(Clone, PartialEq)]
enum Entry {
    Sort,
    Record,
    Literal(Vec<u8>, SType),
    Operator,
}

fn printed(name: &[u8]) -> String {
    let text = String::from_utf8(name.to_vec()).expect("ASCII");
    match text
        .strip_prefix('|')
        .and_then(|text| text.strip_suffix('|'))
    {
        Some(inside) => inside.into(),
        None => text,
    }
}

fn entries(program: &Program) -> Vec<(Entry, String)> {
    let mut entries: Vec<(Entry, String)> =
        vec![(Entry::Sort, "Bool".into()), (Entry::Sort, "Int".into())];
    let types = program.types.iter().map(|typ| typ.name);
    entries.extend(types.map(|name| (Entry::Sort, printed(name))));
    let constants = program.constants.iter().map(|constant| constant.name);
    let functions = program.functions.iter().map(|function| function.name);
    entries.extend(
        constants
            .chain(functions)
            .map(|name| (Entry::Record, printed(name))),
    );
    for term in &program.terms {
        match term {
            RExpr::CustomLiteral { s, typ } if s != b"%tag" => {
                let typ_text = match typ {
                    SType::SBool => "bool".into(),
                    SType::SInt => "int".into(),
                    SType::SUserType(typ) => {
                        String::from_utf8(program.types[*typ].name.to_vec()).expect("ASCII")
                    }
                };
                let text = String::from_utf8(s.to_vec()).expect("ASCII");
                let literal = Entry::Literal(s.to_vec(), *typ);
                entries.push((literal, format!("{text}:{typ_text}")));
            }
            RExpr::FuncAppl {
                op: ROperator::BuiltInOperator(name),
                ..
            } => {
                let name = if name.is_empty() {
                    "()".into()
                } else {
                    printed(name)
                };
                entries.push((Entry::Operator, name));
            }
            _ => {}
        }
    }
    entries
}

/// By document 02's words, and by what is printed alone.
fn clash((first, name): &(Entry, String), (second, other): &(Entry, String)) -> [bool; 2] {
    let prints_alike = (*first == Entry::Sort) == (*second == Entry::Sort) && name == other;
    match (first, second) {
        (Entry::Operator, Entry::Operator) => [false; 2],
        (Entry::Literal(s, typ), Entry::Literal(other_s, other_typ)) if s == other_s => {
            let differ = typ != other_typ;
            [differ, differ && prints_alike]
        }
        _ => [prints_alike; 2],
    }
}

#[test]
fn random_books_pair_by_pair() {
    let mut random = Random::new(SEED);
    // Told apart, only printing apart, neither.
    let mut met = [0; 3];
    for _ in 0..BOOKS {
        let size = random.pick(&SIZES);
        let counts = Counts::random(&mut random, size);
        let book = random_book(&mut random, counts).book();
        let program = check(&book).expect("random books pass");
        let entries = entries(&program);
        let [mut clashes, mut alike] = [false; 2];
        for at in 0..entries.len() {
            for other in &entries[at + 1..] {
                let [clash, print_alike] = clash(&entries[at], other);
                clashes |= clash;
                alike |= print_alike;
            }
        }
        let apart = [told_apart(&program), prints_apart(&program)];
        assert_eq!(apart, [!clashes, !alike], "{program:?}");
        met[usize::from(clashes) + usize::from(alike)] += 1;
    }
    assert!(met.iter().all(|times| *times > BOOKS / 50), "{met:?}");
}
