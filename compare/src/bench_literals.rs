//! Rows of the sessions' table: cost against the count of literals, and against
//! the ways in which their names are alike.

use crate::bench_sessions::{bench, bench_last_term, bench_move, Travel};
use crate::made_costly::{alike, split_alike};
use crate::made_literals::Literal;
use leskofar_reference::book::{kind, Section, BOOL, FIRST_USER_TYPE, INT};
use leskofar_reference::maker::Maker;

/// Up to nearly as many as there can be.
const LITERALS: [usize; 4] = [125, 250, 500, 1000];
const MANY: usize = LITERALS[3];
/// The types of literals that come in pairs of one text.
const PAIR: [u32; 2] = [BOOL, INT];
/// Names that many literals share.
const FEW_NAMES: [(&str, usize); 2] = [("literals of 10 names", 10), ("literals of one name", 1)];
/// Letters of literals whose names differ late, and their names: as many as
/// there can be beside the operator.
const ALIKE: [usize; 3] = [512, 1024, 2048];
const ALIKE_NAMES: usize = Section::Names.most() - 1;
/// The same at its worst: nearly all letters of a book are in each name.
const LONGEST: usize = 7_600;
/// Letters of text and type together, where different splits have the same.
const SPLIT: usize = 7_500;

/// A term with literals as arguments, the last of its book.
fn with_arguments(mut m: Maker, literals: &[Literal]) -> Maker {
    let args: Vec<u32> = literals
        .iter()
        .map(|literal| m.term(kind::CUSTOM_LITERAL, *literal))
        .collect();
    m.built_in("and", &args);
    m
}

/// So many literals, each of another name: pairs of one text.
fn different(count: usize, text: fn(usize) -> String) -> Maker {
    let mut m = Maker::default();
    let names: Vec<u32> = (0..count.div_ceil(PAIR.len()))
        .map(|name| m.name(&text(name)))
        .collect();
    let pairs = names.iter().flat_map(|name| PAIR.map(|typ| [*name, typ]));
    let literals: Vec<Literal> = pairs.take(count).collect();
    with_arguments(m, &literals)
}

fn literals(count: usize) -> Maker {
    different(count, |name| format!("literal{name:04}"))
}

fn short_literals(count: usize) -> Maker {
    different(count, |name| format!("l{name:03}"))
}

/// So many literals, of so many names in turn.
fn literals_of(count: usize, names: usize) -> Maker {
    let mut m = Maker::default();
    let names: Vec<u32> = (0..names)
        .map(|name| m.name(&format!("literal{name:04}")))
        .collect();
    let in_turn = names.iter().cycle().take(count);
    let literals: Vec<Literal> = in_turn.map(|name| [*name, INT]).collect();
    with_arguments(m, &literals)
}

/// So many literals of as many types as there can be, which share a name: no
/// two have text and type in common, but each text comes twice.
fn types_of_one_name(count: usize) -> Maker {
    let mut m = Maker::default();
    let shared = m.name("shade");
    let types = Section::Types.most();
    m.types = vec![[shared]; types];
    let names: Vec<u32> = (0..count.div_ceil(PAIR.len()))
        .map(|name| m.name(&format!("literal{name:04}")))
        .collect();
    let types = (FIRST_USER_TYPE..).take(types).cycle();
    let in_turn = names.iter().cycle().zip(types).take(count);
    let literals: Vec<Literal> = in_turn.map(|(name, typ)| [*name, typ]).collect();
    with_arguments(m, &literals)
}

/// A move to a node with the last term, that term asked at the root, and a move
/// to the node where the session is, which only tests the session.
fn bench_with_later_call(name: &str, size: usize, mut m: Maker) {
    let last = m.terms.len() as u32 - 1;
    let node = m.context(0, last);
    for (call, from, to, goal) in [
        ("move", 0, node, None),
        ("ask", 0, 0, Some(last)),
        ("move to the present node", node, node, None),
    ] {
        let travel = Travel { from, to, goal };
        bench(&format!("{call}, {name}"), size, &m, travel);
    }
}

pub fn rows() {
    for count in LITERALS {
        bench_last_term("literals", count, literals(count));
    }
    for (name, names) in FEW_NAMES {
        bench_last_term(name, MANY, literals_of(MANY, names));
    }
    bench_move("literals of 4 letters", MANY, short_literals(MANY));
    bench_move(
        "literals of types of one name",
        MANY,
        types_of_one_name(MANY),
    );
    for letters in ALIKE {
        bench_move(
            "literals that differ late, by letters",
            letters,
            alike(letters, ALIKE_NAMES),
        );
    }
    bench_with_later_call(
        "1,000 longest literals that differ late, by letters",
        LONGEST,
        alike(LONGEST, MANY / PAIR.len()),
    );
    bench_move(
        "1,000 literals of different splits, by letters",
        SPLIT,
        split_alike(SPLIT, MANY),
    );
}
