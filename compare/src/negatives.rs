//! Negative numbers against the reference: at the borders, wherever a term
//! can hold one, and in buffers that their text just fills; names that look
//! like them; and the two pops that end a question.

use crate::calls::{Call, Measure, FAILED, OK};
use crate::listing::{compare_each, Listing};
use crate::lists::on_book;
use crate::made_terms::{flat_numbers, nests_of_number};
use crate::print_call::{compare_last, compare_terms, Print, FLAGS, ONE_LINE};
use crate::scratch_bytes::LEAST;
use crate::seen::{Seen, RESULTS};
use crate::session_tours::tour;
use crate::sessions::{follow, END};
use crate::strict_lists::{ask_all, checked_as_sane};
use crate::tally::{Met, Tally};
use leskofar_reference::book::{Section, INT};
use leskofar_reference::maker::{sample, Maker};
use leskofar_reference::refusal::TOO_LONG;
use leskofar_reference::session::UNSAT;
use leskofar_reference::smtlib::Reader;

/// Numbers at the borders, with their text on one line.
const NUMBERS: [(i64, &str); 6] = [
    (0, "0"),
    (1, "1"),
    (-1, "(- 1)"),
    (i64::MAX, "9223372036854775807"),
    (i64::MIN + 1, "(- 9223372036854775807)"),
    (i64::MIN, "(- 9223372036854775808)"),
];
/// Indents of texts that are written out.
const SHORT_INDENTS: [usize; 3] = [0, 1, 7];
/// How much deeper the parts of a row stand.
const DEEPER: usize = 2;
/// The bytes of two pops.
const TWO_POPS: usize = 16;
/// More than the texts of the sample and of a few terms have.
const ROOM: usize = 1 << 10;
/// The most arguments that a book has terms for.
const MOST_ARGUMENTS: usize = Section::Terms.most() - 1;

/// A number in every place of a term, as a premise, and as the last term: a
/// goal that is the number itself.
fn places(x: i64) -> Maker {
    let mut m = Maker::default();
    let v = m.constant("v", INT);
    let f = m.function("f", &[INT], INT);
    let args = [m.integer(x)];
    m.apply(f, &args);
    let args = [m.integer(x)];
    m.built_in("-", &args);
    let args = [m.integer(x), m.id(v), m.integer(x)];
    m.built_in("+", &args);
    let [guard, thn, els] = [(); 3].map(|()| m.integer(x));
    m.if_then_else(guard, thn, els);
    let [rhs, body] = [(); 2].map(|()| m.integer(x));
    m.let_expr(v, rhs, body);
    let alone = [m.integer(x)];
    let first = [m.integer(x), m.id(v)];
    let last = [m.id(v), m.integer(x)];
    let patterns = [&alone[..], &first, &last].map(|terms| m.pattern(terms));
    let body = m.integer(x);
    m.quantifier(true, &[v], &patterns, body);
    let body = m.integer(x);
    m.quantifier(false, &[], &[], body);
    let premise = m.integer(x);
    m.context(0, premise);
    m.integer(x);
    m
}

/// The text of a term, compared with the reference's.
fn printed(m: &Maker, term: u32, newlines: u32, indent: u64) -> Result<String, String> {
    let call = Print {
        book: &m.book(),
        term,
        tag: 0,
        newlines,
        indent,
    };
    let left = call.compare(ROOM, &LEAST, &mut Met::default())?;
    Ok(String::from_utf8_lossy(left.text()).into_owned())
}

/// The same of a listing of the term at the root.
fn listed(m: &Maker, goal: u32) -> Result<String, String> {
    let call = Listing {
        book: &m.book(),
        node: 0,
        goal,
    };
    let left = call.compare(ROOM, &LEAST, &mut Met::default())?;
    Ok(String::from_utf8_lossy(left.text()).into_owned())
}

fn expect(found: String, expected: &str) -> Result<(), String> {
    if found == expected {
        Ok(())
    } else {
        Err(format!("{found:?}, expected {expected:?}"))
    }
}

fn printed_groups(tally: &mut Tally) {
    tally.group("numbers, printed in every place", || {
        let mut met = Met::default();
        for (x, text) in NUMBERS {
            let m = places(x);
            compare_terms(&m.book(), &mut met)?;
            let alone = m.terms.len() as u32 - 1;
            expect(printed(&m, alone, ONE_LINE, u64::MAX)?, text)?;
            for indent in SHORT_INDENTS {
                let deeper = format!("\n{}", " ".repeat(indent + DEEPER));
                let broken = text.replace(' ', &deeper);
                expect(printed(&m, alone, FLAGS[0], indent as u64)?, &broken)?;
            }
        }
        met.only(&[0, TOO_LONG])
    });
    tally.group("numbers, as many and as deep as a book can have", || {
        let mut met = Met::default();
        for (x, _) in NUMBERS {
            compare_last(&flat_numbers(MOST_ARGUMENTS, x), &mut met)?;
            for (name, m) in nests_of_number(x) {
                compare_last(&m, &mut met).map_err(|what| format!("{name}: {what}"))?;
            }
        }
        met.only(&[0, TOO_LONG])
    });
    tally.group("numbers, listed with their sign", || {
        let mut met = Met::default();
        for (x, _) in NUMBERS {
            let m = places(x);
            let [nodes, goals] = [m.contexts.len(), m.terms.len()].map(|count| count as u32);
            compare_each(&m, 0..=nodes, 0..goals, &mut met)?;
            let listing = format!("----- Proof obligation:\n  |-\n  {x}\n");
            expect(listed(&m, goals - 1)?, &listing)?;
        }
        met.only(&[0, TOO_LONG])
    });
}

fn session_groups(tally: &mut Tally) {
    tally.group("numbers, as premises and goals", || {
        let mut seen = Seen::default();
        let mut measure = Measure::new();
        for (x, text) in NUMBERS {
            let m = places(x);
            checked_as_sane(&m)?;
            let goal = m.terms.len() as u32 - 1;
            on_book(&m, |list| {
                let moved = format!("(push 1)\n(assert {text})\n");
                let asked = format!("(push 1)\n(push 1)\n(assert (not {text}))\n(check-sat)\n");
                let calls = [
                    (Call::Move { node: 1 }, moved.as_str(), &b""[..]),
                    (Call::Ask { node: 1, goal }, &asked, b""),
                    (Call::reply(OK, UNSAT), END, b""),
                ];
                follow(list, &calls, &mut seen)
            })?;
            tour(&m, &mut measure, &mut seen)?;
            let questions = (0..=goal).flat_map(|goal| [[0, goal], [1, goal]]);
            ask_all(&m, questions, &mut measure, &mut seen)?;
        }
        let results = seen.results.all_of(&RESULTS)?;
        Ok(format!("{results}, {}", seen.read_strictly()?))
    });
    tally.group("numbers, as many and as deep, asked", || {
        let mut seen = Seen::default();
        let mut measure = Measure::new();
        let mut books = nests_of_number(i64::MIN);
        books.push(("flat", flat_numbers(MOST_ARGUMENTS, i64::MIN)));
        for (name, mut m) in books {
            let last = m.terms.len() as u32 - 1;
            m.context(0, last);
            tour(&m, &mut measure, &mut seen).map_err(|what| format!("{name}: {what}"))?;
        }
        let results = seen.results.all_of(&RESULTS[..RESULTS.len() - 1])?;
        Ok(format!("{results}, {}", seen.read_strictly()?))
    });
}

/// Every call that ends a question, after one that has it end so.
fn ends() -> [(Option<Call>, Call); 4] {
    let owed = || Some(Call::reply(OK, b"sat"));
    [
        (None, Call::reply(OK, UNSAT)),
        (None, Call::reply(FAILED, b"error")),
        (owed(), Call::model(b"sat", None)),
        (owed(), Call::model(b"sat", Some(b"model"))),
    ]
}

fn pops_group(tally: &mut Tally) {
    tally.group("two pops, in a buffer of 15 bytes and of 16", || {
        let sample = sample();
        let ask = Call::Ask {
            node: 3,
            goal: sample.goal,
        };
        let mut seen = Seen::default();
        on_book(&sample.maker, |list| {
            for (before, end) in ends() {
                for call in [Some(ask.clone()), before].into_iter().flatten() {
                    list.step(&call, ROOM, 0, &mut seen)?;
                }
                let open = list.image().to_vec();
                let left = list.step(&end, TWO_POPS - 1, ROOM, &mut seen)?;
                if left.answer.refusal != TOO_LONG || left.image() != open {
                    return Err(format!("{:?} in 15 bytes, of {end:?}", left.answer));
                }
                let left = list.step(&end, TWO_POPS, ROOM, &mut seen)?;
                if left.text() != END.as_bytes() || left.image() == open {
                    return Err(format!("{:?} in 16 bytes, of {end:?}", left.answer));
                }
            }
            Ok(())
        })?;
        seen.results.all_of(&RESULTS[1..])
    });
}

/// Terms with their text on one line: a constant and an operator that are
/// called as the number is listed, a minus applied to 5, and the number.
fn namesakes() -> (Maker, [(u32, &'static str); 5]) {
    let mut m = Maker::default();
    let v = m.constant("-5", INT);
    let constant = m.id(v);
    let args = [m.id(v)];
    let applied = m.built_in("-5", &args);
    let operator = m.built_in("-5", &[]);
    let args = [m.integer(5)];
    let minus = m.built_in("-", &args);
    let args = [m.id(v), m.integer(-5)];
    let premise = m.built_in("=", &args);
    m.context(0, premise);
    let number = m.integer(-5);
    let terms = [
        (constant, "-5"),
        (applied, "(-5 -5)"),
        (operator, "-5"),
        (minus, "(- 5)"),
        (number, "(- 5)"),
    ];
    (m, terms)
}

fn name_group(tally: &mut Tally) {
    tally.group("names that look like numbers", || {
        let (m, terms) = namesakes();
        let mut met = Met::default();
        compare_terms(&m.book(), &mut met)?;
        compare_each(&m, 0..=1, 0..m.terms.len() as u32, &mut met)?;
        tour(&m, &mut Measure::new(), &mut Seen::default())?;
        for (term, text) in terms {
            expect(printed(&m, term, ONE_LINE, 0)?, text)?;
            let broken = text.replace(' ', &format!("\n{}", " ".repeat(DEEPER)));
            expect(printed(&m, term, FLAGS[0], 0)?, &broken)?;
        }
        // Once it is declared, `-5` is a name as any other to the standard.
        let left = on_book(&m, |list| {
            let call = Call::Move { node: 1 };
            list.step(&call, ROOM, 0, &mut Seen::default())
        })?;
        let read = Reader::default().read(left.text());
        if read.is_err() || Reader::default().read_term(b"-5").is_ok() {
            return Err(format!("{read:?} of {}", left.text().escape_ascii()));
        }
        met.only(&[0, TOO_LONG])
    });
}

pub fn run(tally: &mut Tally) {
    printed_groups(tally);
    session_groups(tally);
    pops_group(tally);
    name_group(tally);
}
