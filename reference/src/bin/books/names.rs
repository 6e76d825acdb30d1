//! Faults in a book's names: texts that are no token, numbers, reserved words,
//! and names that two things have. Some of them are good all the same.

use leskofar_reference::book::{kind, FIRST_USER_TYPE};
use leskofar_reference::maker::Maker;
use leskofar_reference::random::{Random, AT_TIMES, OFTEN};

/// Names that look bad and are good, for constants, functions and types.
pub const ODD_NAMES: [&str; 14] = [
    "||",
    "|a b|",
    "|1.|",
    "|.5|",
    "--5",
    "-a",
    "|- 5|",
    "+5",
    "|5a|",
    "|a:b|",
    "|(|",
    "%tag",
    "|%tag:int|",
    "|1.2.3|",
];
pub const BAD_NAMES: [&str; 32] = [
    "", " ", "a b", "|", "|||", "|a", "a|", "|a|b|", "|a\\b|", "a\\b", "\\", ":a", "a:b", "(",
    "1x", "#", "#x", "#xg", "#b2", "007", "01.5", "1.", "1.2.3", "Bool", "|Int|", "\"", "5", "1.5",
    "#x1F", "#b01", "x ", ";",
];
pub const NUMBERS: [&str; 10] = [
    "-5", "|5|", "|-5|", "-1.5", "|1.5|", "|-1.50|", "|#x1F|", "|#b|", "-007", "|007|",
];
/// Reserved words, and words that mean something already. Not the lists of
/// the programs that are compared: what one of them misses is to be found.
pub const WORDS: [&str; 63] = [
    "!",
    "_",
    "as",
    "BINARY",
    "DECIMAL",
    "exists",
    "HEXADECIMAL",
    "forall",
    "let",
    "match",
    "NUMERAL",
    "par",
    "STRING",
    "assert",
    "check-sat",
    "check-sat-assuming",
    "declare-const",
    "declare-datatype",
    "declare-datatypes",
    "declare-fun",
    "declare-sort",
    "define-fun",
    "define-fun-rec",
    "define-funs-rec",
    "define-sort",
    "echo",
    "exit",
    "get-assertions",
    "get-assignment",
    "get-info",
    "get-model",
    "get-option",
    "get-proof",
    "get-unsat-assumptions",
    "get-unsat-core",
    "get-value",
    "pop",
    "push",
    "reset",
    "reset-assertions",
    "set-info",
    "set-logic",
    "set-option",
    "true",
    "false",
    "ite",
    "=",
    "=>",
    "and",
    "or",
    "not",
    "xor",
    "distinct",
    "<",
    "<=",
    ">",
    ">=",
    "+",
    "-",
    "*",
    "div",
    "mod",
    "abs",
];
/// The words that literals of the built-in types have for them.
const TYPES_IN_LITERALS: [&str; FIRST_USER_TYPE as usize] = ["bool", "int"];

/// Where a name stands.
#[derive(Clone, Copy)]
enum Place {
    Type(usize),
    Constant(usize),
    Function(usize),
    /// A literal's or a built-in operator's.
    Term(usize),
}

/// Gives every record a good name of its own.
pub fn rename_all(maker: &mut Maker) {
    for place in places(maker) {
        let text = match place {
            Place::Type(record) => format!("T{record}"),
            Place::Constant(record) => format!("c{record}"),
            Place::Function(record) => format!("f{record}"),
            Place::Term(record) => format!("t{record}"),
        };
        rename(maker, place, &text);
    }
}

/// Gives some record another name.
pub fn spoil(random: &mut Random, maker: &mut Maker) {
    let places = places(maker);
    if places.is_empty() {
        return;
    }
    let place = random.pick(&places);
    let text = match random.below(7) {
        0 => random.pick(&BAD_NAMES).to_string(),
        1 => random.pick(&NUMBERS).to_string(),
        2 | 3 => {
            let word = random.pick(&WORDS);
            with_bars_at_times(random, word)
        }
        4 => random.pick(&ODD_NAMES).to_string(),
        _ => {
            let other = random.pick(&places);
            name_of(random, maker, other)
        }
    };
    if matches!(place, Place::Type(_)) && random.one_in(AT_TIMES) {
        let text = random.pick(&TYPES_IN_LITERALS);
        rename(maker, place, text);
    } else {
        rename(maker, place, &text);
    }
}

fn places(maker: &Maker) -> Vec<Place> {
    let has_name = |term: &usize| {
        let [kind, ..] = maker.terms[*term];
        [kind::CUSTOM_LITERAL, kind::BUILT_IN].contains(&kind)
    };
    let types = (0..maker.types.len()).map(Place::Type);
    let constants = (0..maker.constants.len()).map(Place::Constant);
    let functions = (0..maker.functions.len()).map(Place::Function);
    let terms = (0..maker.terms.len()).filter(has_name).map(Place::Term);
    types
        .chain(constants)
        .chain(functions)
        .chain(terms)
        .collect()
}

fn name_field(maker: &mut Maker, place: Place) -> &mut u32 {
    match place {
        Place::Type(record) => &mut maker.types[record][0],
        Place::Constant(record) => &mut maker.constants[record][0],
        Place::Function(record) => &mut maker.functions[record][0],
        Place::Term(record) => &mut maker.terms[record][1],
    }
}

fn rename(maker: &mut Maker, place: Place, text: &str) {
    let name = maker.name(text);
    *name_field(maker, place) = name;
}

fn text(maker: &Maker, name: u32) -> String {
    let [start, length] = maker.names[name as usize].map(|number| number as usize);
    let letters = &maker.letters[start..start + length];
    letters.iter().copied().map(char::from).collect()
}

/// What a place is called, with other bars at times; a literal as the solver
/// sees it.
fn name_of(random: &mut Random, maker: &mut Maker, place: Place) -> String {
    let name = *name_field(maker, place);
    let own = text(maker, name);
    match place {
        Place::Term(record) if maker.terms[record][0] == kind::CUSTOM_LITERAL => {
            let [_, _, typ, ..] = maker.terms[record];
            let typ = match typ.checked_sub(FIRST_USER_TYPE) {
                None => TYPES_IN_LITERALS[typ as usize].to_string(),
                Some(user) => text(maker, maker.types[user as usize][0]),
            };
            format!("|{own}:{typ}|")
        }
        _ => with_bars_at_times(random, &own),
    }
}

/// The same symbol with bars or without, or as it is.
fn with_bars_at_times(random: &mut Random, text: &str) -> String {
    let barred = text.strip_prefix('|').and_then(|t| t.strip_suffix('|'));
    match barred {
        _ if random.one_in(OFTEN) => text.to_string(),
        Some(inner) => inner.to_string(),
        None => format!("|{text}|"),
    }
}
