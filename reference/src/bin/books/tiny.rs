//! Tiny books that turn on one rule: an operator or another term with some
//! arguments, or a few names that may meet.

use crate::names::{BAD_NAMES, NUMBERS, ODD_NAMES, WORDS};
use crate::sorted::SIGNATURES;
use leskofar_reference::book::{BOOL, INT};
use leskofar_reference::maker::Maker;
use leskofar_reference::random::{Random, OFTEN};

const MOST_ARGUMENTS: usize = 4;
const MOST_NAMED: usize = 3;
/// Names that meet, as others' or as those of literals.
const MEETING: [&str; 8] = [
    "a", "|a|", "|a:int|", "|a:bool|", "|a:T|", "T", "|T|", "|:int|",
];
const TYPES: [&str; 8] = ["int", "int", "bool", "bool", "T", "|T|", "|Int|", "|Bool|"];
const TEXTS: [&str; 6] = ["a", "a", "a", "", "%tag", "a\\"];

pub fn tiny_book(random: &mut Random) -> Maker {
    let mut maker = Maker::default();
    match random.below(4) {
        0 => add_form(random, &mut maker),
        1 => add_operator(random, &mut maker),
        _ => add_named(random, &mut maker),
    }
    maker
}

/// A term that is no operator's.
fn add_form(random: &mut Random, maker: &mut Maker) {
    let typ = maker.user_type("T");
    let sort = random.pick(&[BOOL, INT, typ]);
    let mut part = |maker: &mut Maker, sort| argument(random, maker, sort, typ);
    let [condition, one, other] = [BOOL, sort, sort].map(|sort| part(maker, sort));
    match random.below(4) {
        0 => maker.if_then_else(condition, one, other),
        1 => {
            let constant = maker.constant("v", sort);
            maker.let_expr(constant, one, condition)
        }
        2 => {
            let function = maker.function("f", &[BOOL, sort], sort);
            let count = random.pick(&[1, 2, 2, 3]);
            maker.apply(function, &[condition, one, other][..count])
        }
        _ => maker.quantifier(true, &[], &[], condition),
    };
}

/// An operator, often with arguments of the sort that it takes and in the
/// number that it takes, below a node or an axiom at times.
fn add_operator(random: &mut Random, maker: &mut Maker) {
    let typ = maker.user_type("T");
    let (name, least, most, takes, _) = random.pick(&SIGNATURES);
    let takes = takes.unwrap_or_else(|| random.pick(&[BOOL, INT, typ]));
    let count = if random.one_in(OFTEN) {
        random.up_to(MOST_ARGUMENTS)
    } else {
        least + random.up_to(most - least)
    };
    let args: Vec<u32> = (0..count)
        .map(|_| argument(random, maker, takes, typ))
        .collect();
    let term = maker.built_in(name, &args);
    match random.below(4) {
        0 => {
            maker.context(0, term);
        }
        1 => {
            maker.axiom(Some(term), &[]);
        }
        _ => {}
    }
}

/// Mostly of the sort; at times of another, or of any.
fn argument(random: &mut Random, maker: &mut Maker, sort: u32, typ: u32) -> u32 {
    let is_wrong = random.one_in(2 * MOST_ARGUMENTS);
    let sort = if is_wrong {
        random.pick(&[BOOL, INT, typ])
    } else {
        sort
    };
    match random.below(6) {
        0 => maker.built_in("unknown", &[]),
        1 => {
            let guard = maker.boolean(true);
            let any = maker.built_in("unknown", &[]);
            let known = maker.literal("a", sort);
            if random.one_in(OFTEN) {
                maker.if_then_else(guard, known, any)
            } else {
                maker.if_then_else(guard, any, known)
            }
        }
        2 if sort == INT || is_wrong => maker.literal("%tag", sort),
        3 => {
            let constant = maker.constants.len();
            let constant = maker.constant(&format!("c{constant}"), sort);
            maker.id(constant)
        }
        _ => maker.literal("a", sort),
    }
}

/// A few records whose names come from a small store.
fn add_named(random: &mut Random, maker: &mut Maker) {
    match random.below(5) {
        0 => {
            let name = random.pick(&TYPES);
            maker.user_type(name);
            let name = random.pick(&TYPES);
            maker.user_type(name);
        }
        1 => {
            let name = random.pick(&TYPES);
            let typ = maker.user_type(name);
            add_literal(random, maker, &[BOOL, INT, typ]);
            add_literal(random, maker, &[BOOL, INT, typ]);
        }
        2 => {
            let typ = maker.user_type("T");
            for _ in 0..=random.below(MOST_NAMED) {
                let name = random.pick(&MEETING);
                add_symbol(random, maker, name, &[BOOL, INT, typ]);
            }
        }
        _ => {
            let name = some_spelling(random);
            add_symbol(random, maker, name, &[INT]);
        }
    }
}

fn add_literal(random: &mut Random, maker: &mut Maker, types: &[u32]) {
    let text = random.pick(&TEXTS);
    let typ = random.pick(types);
    maker.literal(text, typ);
}

/// A constant, function or operator of the name, or some literal.
fn add_symbol(random: &mut Random, maker: &mut Maker, name: &str, types: &[u32]) {
    match random.below(5) {
        0 => {
            maker.constant(name, INT);
        }
        1 => {
            maker.function(name, &[], INT);
        }
        2 => {
            maker.built_in(name, &[]);
        }
        3 => {
            maker.user_type(name);
        }
        _ => add_literal(random, maker, types),
    }
}

fn some_spelling(random: &mut Random) -> &'static str {
    match random.below(4) {
        0 => random.pick(&BAD_NAMES),
        1 => random.pick(&NUMBERS),
        2 => random.pick(&ODD_NAMES),
        _ => random.pick(&WORDS),
    }
}
