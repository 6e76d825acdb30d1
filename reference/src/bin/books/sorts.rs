//! Faults in the sorts and numbers of arguments of a book's terms. Some of
//! them change nothing that matters.

use crate::sorted::{Signature, SIGNATURES};
use leskofar_reference::book::{kind, BOOL, FIRST_USER_TYPE, INT};
use leskofar_reference::maker::Maker;
use leskofar_reference::random::{Random, OFTEN};

type Fault = fn(&mut Random, &mut Maker);

const FAULTS: [Fault; 11] = [
    drop_argument,
    rename_operator,
    rename_alike,
    rename_alike,
    rename_alike,
    retype_constant,
    retype_function,
    retype_literal,
    change_leaf,
    swap_entries,
    turn_branches,
];
/// Fields of a term's record.
const FIRST: usize = 1;
const LAST_OF_BRANCHES: usize = 3;
const LITERAL_TYPE: usize = 2;
const ARGUMENTS: usize = 2;
const ARGUMENT_COUNT: usize = 3;
/// Fields of a function's record.
const RESULT: usize = 1;
const INPUTS: usize = 2;
const INPUT_COUNT: usize = 3;
/// A literal's text that stands for a number.
const TAG: &str = "%tag";

pub fn spoil(random: &mut Random, maker: &mut Maker) {
    random.pick(&FAULTS)(random, maker);
}

/// Some term of one of the kinds.
fn some_term(random: &mut Random, maker: &Maker, kinds: &[u32]) -> Option<usize> {
    let of_kind: Vec<usize> = (0..maker.terms.len())
        .filter(|term| kinds.contains(&maker.terms[*term][0]))
        .collect();
    (!of_kind.is_empty()).then(|| random.pick(&of_kind))
}

fn some_type(random: &mut Random, maker: &Maker) -> u32 {
    random.below(FIRST_USER_TYPE as usize + maker.types.len()) as u32
}

/// The last argument, or the first.
fn drop_argument(random: &mut Random, maker: &mut Maker) {
    let Some(term) = some_term(random, maker, &[kind::BUILT_IN, kind::FUNCTION]) else {
        return;
    };
    let record = &mut maker.terms[term];
    if record[ARGUMENT_COUNT] > 0 {
        record[ARGUMENT_COUNT] -= 1;
        record[ARGUMENTS] += u32::from(random.one_in(OFTEN));
    }
}

fn rename_operator(random: &mut Random, maker: &mut Maker) {
    if let Some(term) = some_term(random, maker, &[kind::BUILT_IN]) {
        let (name, ..) = random.pick(&SIGNATURES);
        maker.terms[term][FIRST] = maker.name(name);
    }
}

/// The operator becomes one of the same sorts, so that only the number of its
/// arguments may be wrong.
fn rename_alike(random: &mut Random, maker: &mut Maker) {
    let operators: Vec<(usize, Signature)> = (0..maker.terms.len())
        .filter(|term| maker.terms[*term][0] == kind::BUILT_IN)
        .filter_map(|term| Some((term, signature(maker, term)?)))
        .collect();
    if operators.is_empty() {
        return;
    }
    let (term, (.., takes, gives)) = random.pick(&operators);
    let alike: Vec<Signature> = (SIGNATURES.into_iter())
        .filter(|(.., t, g)| (*t, *g) == (takes, gives))
        .collect();
    let (name, ..) = random.pick(&alike);
    maker.terms[term][FIRST] = maker.name(name);
}

fn signature(maker: &Maker, term: usize) -> Option<Signature> {
    let name = maker.terms[term][FIRST] as usize;
    let [start, length] = maker.names[name].map(|number| number as usize);
    let letters = &maker.letters[start..start + length];
    SIGNATURES
        .into_iter()
        .find(|(name, ..)| name.as_bytes() == letters)
}

fn retype_constant(random: &mut Random, maker: &mut Maker) {
    if !maker.constants.is_empty() {
        let constant = random.below(maker.constants.len());
        maker.constants[constant][1] = some_type(random, maker);
    }
}

/// What a function gives, or how many inputs it has, or one of them.
fn retype_function(random: &mut Random, maker: &mut Maker) {
    if maker.functions.is_empty() {
        return;
    }
    let function = random.below(maker.functions.len());
    let typ = some_type(random, maker);
    let record = &mut maker.functions[function];
    let inputs = record[INPUT_COUNT] as usize;
    match random.below(3) {
        0 if inputs > 0 => record[INPUT_COUNT] -= 1,
        1 if inputs > 0 => {
            let input = record[INPUTS] as usize + random.below(inputs);
            maker.lists[input] = typ;
        }
        _ => record[RESULT] = typ,
    }
}

/// A literal gets another type, or becomes a tag of it.
fn retype_literal(random: &mut Random, maker: &mut Maker) {
    if let Some(term) = some_term(random, maker, &[kind::CUSTOM_LITERAL]) {
        maker.terms[term][LITERAL_TYPE] = some_type(random, maker);
        if random.one_in(OFTEN) {
            maker.terms[term][FIRST] = maker.name(TAG);
        }
    }
}

/// A term without children becomes another one.
fn change_leaf(random: &mut Random, maker: &mut Maker) {
    let leaves = [kind::BOOLEAN, kind::INTEGER, kind::CUSTOM_LITERAL, kind::ID];
    let Some(term) = some_term(random, maker, &leaves) else {
        return;
    };
    // It is made at the end, and moved to the place.
    match random.below(4) {
        0 => maker.boolean(true),
        1 => maker.integer(1),
        2 => {
            let typ = random.pick(&[BOOL, INT]);
            maker.literal("red", typ)
        }
        _ if maker.constants.is_empty() => maker.integer(-1),
        _ => {
            let constant = random.below(maker.constants.len()) as u32;
            maker.id(constant)
        }
    };
    if let Some(made) = maker.terms.pop() {
        maker.terms[term] = made;
    }
}

/// Two entries of the lists, which often are two arguments.
fn swap_entries(random: &mut Random, maker: &mut Maker) {
    if !maker.lists.is_empty() {
        let one = random.below(maker.lists.len());
        let other = random.below(maker.lists.len());
        maker.lists.swap(one, other);
    }
}

/// The parts of an if-then-else change places, or those of a let do.
fn turn_branches(random: &mut Random, maker: &mut Maker) {
    if let Some(term) = some_term(random, maker, &[kind::IF_THEN_ELSE, kind::LET]) {
        let record = &mut maker.terms[term];
        let first = if record[0] == kind::LET {
            FIRST + 1
        } else {
            FIRST
        };
        record[first..=LAST_OF_BRANCHES].rotate_left(1);
    }
}
