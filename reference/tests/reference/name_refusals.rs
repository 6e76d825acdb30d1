//! Refusal 28: each way to it, what is good all the same, and its place among
//! the others.

use crate::book_refusals::{changed, faulty, full};
use crate::desk::{buffer, Desk};
use crate::listing::listed_from;
use crate::nodes::{list, tested_from};
use crate::turns::{narrowed, of_narrow, wide, widened};
use crate::writer_desk::{grown, refusal, Growth};
use crate::writer_refusals::each_call;
use leskofar_reference::audit::SCRIPT_MOST;
use leskofar_reference::audit_samples::script_of;
use leskofar_reference::book::{kind, BOOL, INT, NO_TERM};
use leskofar_reference::book_test::{MOST_DEPTH, SCRATCH_SIZE};
use leskofar_reference::filled_books::tiny;
use leskofar_reference::maker::Maker;
use leskofar_reference::nodes::MOST_NODES;
use leskofar_reference::refusal::{
    BAD_NAME, COUNT, DEPTH, FIELD, FOREST, NOT_IN_BOOK, SCRATCH_SHORT, TOO_LONG,
};
use leskofar_reference::{audit, book_test, print, trace};

/// What no type, constant or function is called.
const BAD: [&str; 12] = [
    "", "|", "|||", "|a", "a|", "a|b", "|a|b|", "||a||", "\\", "a\\b", "|a\\|", "|\\",
];
/// What they may be called.
const GOOD: [&str; 16] = [
    "a", " ", "||", "| |", "|a|", "|red 40|", "red 40", "40", "let", "|let|", "-5", "(", ";", "\"",
    "%tag", "Bool",
];
/// What a literal's text is not; outer bars count here.
const BAD_TEXTS: [&str; 10] = [
    "|", "||", "|a|", "a|", "|a", "a|b", "\\", "a\\b", "%tag|", "|%tag|",
];
const GOOD_TEXTS: [&str; 8] = ["", " ", "dark red", "40", "let", "a:b", "%tag", "\""];

/// Each record that has a name, and none that uses it.
const NAMED: [fn(&mut Maker, &str); 3] = [
    |m, name| {
        m.user_type(name);
    },
    |m, name| {
        m.constant(name, INT);
    },
    |m, name| {
        m.function(name, &[], BOOL);
    },
];

#[test]
fn names_of_types_constants_and_functions() {
    for add in NAMED {
        for name in BAD {
            assert_eq!(changed(|m| add(m, name)), Err(BAD_NAME), "{name}");
        }
        for name in GOOD {
            assert_eq!(changed(|m| add(m, name)), Ok(()), "{name}");
        }
    }
}

/// The first and the last record are looked at as any other.
#[test]
fn wherever_the_record_stands() {
    for name in BAD {
        for change in [
            |m: &mut Maker, name: u32| m.types[0][0] = name,
            |m: &mut Maker, name: u32| m.types.insert(0, [name]),
            |m: &mut Maker, name: u32| m.constants[0][0] = name,
            |m: &mut Maker, name: u32| m.constants[1][0] = name,
            |m: &mut Maker, name: u32| m.functions[0][0] = name,
        ] {
            let with_name = |m: &mut Maker| {
                let name = m.name(name);
                change(m, name);
            };
            assert_eq!(changed(with_name), Err(BAD_NAME), "{name}");
        }
    }
}

#[test]
fn texts_and_types_of_literals() {
    let literal = |s: &str, typ: Option<&str>| {
        changed(|m| {
            let typ = typ.map_or(BOOL, |name| m.user_type(name));
            m.literal(s, typ);
        })
    };
    for typ in [None, Some("T"), Some("red 40"), Some("let")] {
        for s in BAD_TEXTS {
            assert_eq!(literal(s, typ), Err(BAD_NAME), "{s}");
        }
        for s in GOOD_TEXTS {
            assert_eq!(literal(s, typ), Ok(()), "{s}");
        }
    }
    // A type that is good by itself, since its bars stand around it.
    for typ in ["||", "| |", "|T|", "|red 40|"] {
        for s in GOOD_TEXTS {
            let expected = if s == "%tag" { Ok(()) } else { Err(BAD_NAME) };
            assert_eq!(literal(s, Some(typ)), expected, "{s} of {typ}");
        }
    }
    // Neither a literal of another type nor the type alone.
    let beside = |m: &mut Maker| {
        m.user_type("|red 40|");
        m.literal("dark", INT);
    };
    assert_eq!(changed(beside), Ok(()));
}

/// Names of operators, traces and names that no record has are not looked at.
#[test]
fn names_that_are_not_looked_at() {
    for name in BAD {
        let used_elsewhere = |m: &mut Maker| {
            let term = m.built_in(name, &[]);
            m.traced_context(0, term, name);
            m.name(name);
        };
        assert_eq!(changed(used_elsewhere), Ok(()), "{name}");
    }
}

/// 28 in a book with each of 2 to 6 is that one; alone it is told.
#[test]
fn two_to_six_come_first() {
    for (book, number) in faulty() {
        if number == BAD_NAME {
            continue;
        }
        // A constant is given the name of no letters: only names change.
        let spoilt = spoilt_as(number);
        let mut scratch = buffer(SCRATCH_SIZE);
        assert_eq!(book_test(&spoilt, &mut scratch), Err(number));
        assert_eq!(book_test(&book, &mut scratch), Err(number));
        assert!(scratch.iter().all(|byte| *byte == 0));
    }
    let mut short = buffer(SCRATCH_SIZE - 1);
    let book = bad_book();
    assert_eq!(book_test(&book, &mut short), Err(SCRATCH_SHORT));
    assert_eq!(short, buffer(SCRATCH_SIZE - 1));
    let mut scratch = buffer(2 * SCRATCH_SIZE);
    assert_eq!(book_test(&book, &mut scratch), Err(BAD_NAME));
    assert_eq!(scratch, vec![0; 2 * SCRATCH_SIZE]);
}

fn bad_book() -> Vec<u8> {
    spoilt_as(BAD_NAME)
}

/// The full book with a nameless constant, and the fault of a number besides.
fn spoilt_as(number: u32) -> Vec<u8> {
    let mut m = full();
    m.constant("", INT);
    match number {
        COUNT => m.types.resize(65, [0]),
        FIELD => m.axioms.push([m.terms.len() as u32, 0, 0]),
        FOREST => m.axioms.push(m.axioms[0]),
        DEPTH => {
            let mut node = 0;
            for _ in 0..=MOST_DEPTH {
                let term = m.boolean(true);
                node = m.context(node, term);
            }
        }
        BAD_NAME => m.axioms.push([NO_TERM, 0, 0]),
        _ => {
            let mut book = m.book();
            book.push(0);
            return book;
        }
    }
    m.book()
}

/// Behind it comes all that is wrong with a call.
#[test]
fn every_call_gives_it_before_seven_and_the_rest() {
    let book = bad_book();
    let mut scratch = buffer(SCRATCH_SIZE);
    for term in [0, u32::MAX] {
        let printed = print(&book, &mut scratch, term, 0, true, 0, &mut []);
        assert_eq!(printed, Err(BAD_NAME));
        let traced = trace(&book, &mut scratch, term, &mut []);
        assert_eq!(traced, Err(BAD_NAME));
        assert_eq!(listed_from(&book, term, term, 0), Err(BAD_NAME));
        let mut desk = Desk::with_book(book.clone());
        desk.text_size = 0;
        assert_eq!(desk.move_to(term), Err(BAD_NAME));
        assert_eq!(desk.ask(0, term), Err(BAD_NAME));
        assert_eq!(desk.reply(true, b"unsat"), Err(BAD_NAME));
        desk.image.fill(0xFF);
        assert_eq!(desk.ask(term, 0), Err(BAD_NAME));
        assert_eq!(desk.model(b"unsat", None), Err(BAD_NAME));
    }
    for image in [wide(0, &[]), of_narrow(0, &[]), vec![]] {
        assert_eq!(widened(&book, &image), Err(BAD_NAME));
        assert_eq!(narrowed(&book, &image), Err(BAD_NAME));
    }
}

/// A list that is too long is told behind it, a script that is too long before.
#[test]
fn lists_of_nodes_and_audits() {
    let book = bad_book();
    for nodes in [
        vec![],
        list(&[u32::MAX]),
        list(&[0; MOST_NODES + 1]),
        vec![0; 3],
    ] {
        assert_eq!(tested_from(&book, &nodes), Err(BAD_NAME));
    }
    let mut scratch = buffer(SCRATCH_SIZE);
    for questions in [&[][..], &[0; 7], &[0xFF; 8]] {
        let mut audited = |script: &[u8]| audit(&book, &mut scratch, questions, script);
        assert_eq!(audited(b""), Err(BAD_NAME));
        assert_eq!(audited(b"foreign"), Err(BAD_NAME));
        assert_eq!(audited(&script_of(SCRIPT_MOST)), Err(BAD_NAME));
        assert_eq!(audited(&script_of(SCRIPT_MOST + 1)), Err(COUNT));
    }
}

#[test]
fn the_writer_gives_it_for_the_book_received() {
    let book = bad_book();
    for growth in each_call() {
        assert_eq!(refusal(&book, &growth), BAD_NAME);
    }
    // Before 7, and before all of the book that would become.
    for growth in [
        Growth::Node([u32::MAX; 3]),
        Growth::extend(u32::MAX, 0, Some("\n")),
        Growth::Constant([u32::MAX; 2]),
        Growth::name("\n"),
    ] {
        assert_eq!(refusal(&book, &growth), BAD_NAME);
    }
}

/// A book with some names that nothing has, and a name of each.
fn with_names(names: &[&str]) -> Maker {
    let mut m = tiny();
    for name in names {
        m.name(name);
    }
    m
}

#[test]
fn the_writer_gives_it_for_the_book_that_would_become() {
    let mut m = with_names(&["", "a|b", "red 40", "|red 40|"]);
    let [plain, barred] = ["T", "|T|"].map(|name| m.user_type(name));
    let [empty, bad, red, quoted] = [2, 3, 4, 5];
    let book = m.book();
    let literal = |name, typ| {
        let record = [kind::CUSTOM_LITERAL, name, typ, 0, 0, 0, 0];
        Growth::term(record, [&[], &[]])
    };
    for growth in [
        Growth::Constant([empty, INT]),
        Growth::Constant([bad, INT]),
        literal(bad, plain),
        literal(quoted, plain),
        literal(red, barred),
        literal(empty, barred),
    ] {
        assert_eq!(refusal(&book, &growth), BAD_NAME, "{growth:?}");
        // Before 10.
        let answer = growth.call(&book, &mut [0; SCRATCH_SIZE], &mut []);
        assert_eq!(answer, Err(BAD_NAME));
    }
    for growth in [
        Growth::Constant([red, barred]),
        Growth::Constant([quoted, barred]),
        literal(red, plain),
        literal(empty, BOOL),
        Growth::name("|"),
        Growth::name(""),
        Growth::term([kind::BUILT_IN, bad, 0, 0, 0, 0, 0], [&[], &[]]),
        Growth::record(0, 0, barred, Some("a|b")),
        Growth::extend(0, 0, Some("\\")),
        Growth::trace_point(0, "|"),
    ] {
        assert!(grown(&book, &growth).is_ok(), "{growth:?}");
        let answer = growth.call(&book, &mut [0; SCRATCH_SIZE], &mut []);
        assert_eq!(answer, Err(TOO_LONG));
    }
    // Behind 4 and 7, which the same growths have.
    assert_eq!(refusal(&book, &Growth::Constant([bad, barred + 1])), FIELD);
    assert_eq!(refusal(&book, &literal(bad, barred + 1)), FIELD);
    assert_eq!(refusal(&book, &Growth::Node([0, 2, 0])), NOT_IN_BOOK);
}
