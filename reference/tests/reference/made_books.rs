//! Random books, good and damaged.

use crate::desk::{buffer, Desk};
use leskofar_reference::book::{kind, Section, NO_TERM};
use leskofar_reference::book_test;
use leskofar_reference::book_test::{MOST_DEPTH, SCRATCH_SIZE};
use leskofar_reference::damage::damaged;
use leskofar_reference::maker::Maker;
use leskofar_reference::name_faults::{all_ways, ways_of};
use leskofar_reference::program::{RExpr, ROperator};
use leskofar_reference::random::Random;
use leskofar_reference::random_books::{any_random_book, random_book, Counts};
use leskofar_reference::refusal::{BAD_NAME, CONTENTS, DEPTH, REPLY_UNSAT};
use leskofar_reference::{listing, nodes_test, print, trace};
use std::collections::{BTreeMap, BTreeSet};

const SEED: u64 = 20_251_224;
/// Sizes of books, with how many are made of each.
const SIZES: [(usize, usize); 5] = [(1, 500), (3, 500), (12, 300), (60, 60), (400, 10)];
const BOOKS_AT_LIMITS: usize = 24;
const DAMAGES_OF_EACH: usize = 8;

fn books() -> Vec<Maker> {
    made_by(random_book)
}

fn made_by(make: fn(&mut Random, Counts) -> Maker) -> Vec<Maker> {
    let mut random = Random::new(SEED);
    let at_limits = (0..BOOKS_AT_LIMITS).map(|_| make(&mut random, Counts::limits()));
    let mut books: Vec<Maker> = at_limits.collect();
    for (size, many) in SIZES {
        for _ in 0..many {
            let counts = Counts::random(&mut random, size);
            books.push(make(&mut random, counts));
        }
    }
    books
}

fn tested(book: &[u8]) -> Result<(), u32> {
    let mut scratch = buffer(SCRATCH_SIZE);
    let answer = book_test(book, &mut scratch);
    assert!(scratch.iter().all(|byte| *byte == 0));
    answer
}

#[test]
fn random_books_pass() {
    for maker in books() {
        assert_eq!(tested(&maker.book()), Ok(()));
    }
}

/// Most of them pass; the others are 28 by their names, and each way to it is
/// met.
#[test]
fn any_random_books_pass_or_are_28() {
    let books = made_by(any_random_book);
    let mut met = BTreeSet::new();
    let mut refused = 0;
    for maker in &books {
        let ways = ways_of(maker);
        let expected = if ways.is_empty() {
            Ok(())
        } else {
            Err(BAD_NAME)
        };
        assert_eq!(tested(&maker.book()), expected, "{ways:?}");
        refused += usize::from(!ways.is_empty());
        met.extend(ways);
    }
    assert_eq!(met, all_ways());
    assert!(
        refused < books.len() / 4 && refused > books.len() / 20,
        "{refused}"
    );
}

#[test]
fn every_section_can_be_at_its_limit() {
    let mut random = Random::new(SEED);
    for _ in 0..5 {
        let m = random_book(&mut random, Counts::limits());
        let counts = [
            m.letters.len(),
            m.names.len(),
            m.types.len(),
            m.constants.len(),
            m.functions.len(),
            m.axioms.len(),
            m.patterns.len(),
            m.terms.len(),
            m.contexts.len(),
            m.lists.len(),
        ];
        assert_eq!(counts, Section::ALL.map(Section::most));
        assert_eq!(tested(&m.book()), Ok(()));
    }
}

/// What the random books are to have among them.
#[test]
fn random_books_have_everything() {
    let mut seen = BTreeSet::new();
    for maker in books() {
        let book = maker.book();
        let program = leskofar_reference::book_test::check(&book).expect("passes");
        for term in &maker.terms {
            seen.insert(match term[0] {
                kind::BOOLEAN => "Boolean",
                kind::INTEGER => "Integer",
                kind::CUSTOM_LITERAL => "CustomLiteral",
                kind::ID => "Id",
                kind::BUILT_IN => "built-in application",
                kind::FUNCTION => "function application",
                kind::IF_THEN_ELSE => "IfThenElse",
                kind::LET => "LetExpr",
                _ => "QuantifierExpr",
            });
        }
        let mut literals = BTreeMap::new();
        for term in &program.terms {
            match term {
                RExpr::CustomLiteral { s, typ } if *s == b"%tag" => {
                    seen.insert("%tag");
                    if typ.text(&program).contains(&b'|') {
                        seen.insert("%tag of a type with bars");
                    }
                }
                RExpr::FuncAppl {
                    op: ROperator::BuiltInOperator(b""),
                    ..
                } => {
                    seen.insert("operator without a name");
                }
                RExpr::CustomLiteral { s, typ } => {
                    let text = [s, &b":"[..], typ.text(&program)].concat();
                    if literals.insert(text, s.len()).is_some_and(|n| n != s.len()) {
                        seen.insert("equal text by another split");
                    }
                }
                RExpr::QuantifierExpr { vv, patterns, .. } => {
                    if vv.is_empty() {
                        seen.insert("no variables");
                    }
                    let is_empty = |p: &usize| program.patterns[*p].exprs.is_empty();
                    if patterns.iter().any(is_empty) {
                        seen.insert("empty pattern");
                    }
                }
                _ => {}
            }
        }
        for (function, record) in program.functions.iter().enumerate() {
            seen.insert(match record.name {
                [b'|', .., b'|'] => "a function between bars",
                b"let" => "a reserved function",
                name if name.contains(&b' ') => "a function that gets bars",
                _ => "another function",
            });
            for axiom in &record.explained_by {
                if program.axioms[*axiom].explains.contains(&function) {
                    seen.insert("explain each other");
                }
            }
        }
        if maker.axioms.iter().any(|axiom| axiom[0] == NO_TERM) {
            seen.insert("missing axiom");
        }
        if program.nodes().iter().any(|node| node.depth == MOST_DEPTH) {
            seen.insert("deepest node");
        }
    }
    assert_eq!(seen.len(), 22, "{seen:?}");
}

/// Each of 2 to 6 and 28 is met, and every call gives the number of the book test.
#[test]
fn damaged_books_are_refused_alike_by_every_call() {
    let mut random = Random::new(SEED);
    let mut met: BTreeMap<u32, usize> = BTreeMap::new();
    for maker in books() {
        for _ in 0..DAMAGES_OF_EACH {
            let book = damaged(&mut random, &maker);
            let Err(number) = tested(&book) else {
                continue;
            };
            *met.entry(number).or_default() += 1;
            let mut scratch = buffer(SCRATCH_SIZE);
            let printed = print(&book, &mut scratch, 0, 0, true, 0, &mut []);
            assert_eq!(printed, Err(number));
            let traced = trace(&book, &mut scratch, u32::MAX, &mut []);
            assert_eq!(traced, Err(number));
            let listed = listing(&book, &mut scratch, u32::MAX, 0, &mut []);
            assert_eq!(listed, Err(number));
            let tested = nodes_test(&book, &mut scratch, &[0]);
            assert_eq!(tested, Err(number));
            let mut desk = Desk::with_book(book);
            assert_eq!(desk.move_to(u32::MAX), Err(number));
            assert_eq!(desk.ask(0, 0), Err(number));
            assert_eq!(desk.reply(false, b"unsat"), Err(number));
            desk.image.clear();
            assert_eq!(desk.model(b"unsat", None), Err(number));
        }
    }
    for number in (CONTENTS..=DEPTH).chain([BAD_NAME]) {
        assert!(met.get(&number).is_some_and(|times| *times > 50), "{met:?}");
    }
    assert!(!met.contains_key(&REPLY_UNSAT));
}
