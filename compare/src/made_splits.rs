//! Books of literals whose whole names are equal, or nearly, by different
//! splits into text and type.

use crate::made_literals::Literal;
use crate::made_names::{changed, in_two_orders, letters};
use leskofar_reference::book::{BOOL, FIRST_USER_TYPE, INT};
use leskofar_reference::maker::Maker;

const COLON: &str = ":";
/// What stands in a colon's place in a near miss.
const NO_COLON: &str = ";";
/// The letters and the two colons of a text each of whose letters is changed.
pub const SPLIT_LETTERS: usize = 27;
/// The most colons of a text of colons alone.
const COLONS: usize = 20;
/// A long text, and how far apart its colons are.
const LONG: usize = 1_500;
const APART: usize = 120;

/// Literals by their whole names; a type's name gives the same type again.
#[derive(Default)]
struct Splits {
    maker: Maker,
    types: Vec<(String, u32)>,
    literals: Vec<Literal>,
}

impl Splits {
    /// The literal whose whole name is a text and whose type stands behind the
    /// colon at a place.
    fn add(&mut self, whole: &str, colon: usize) {
        let [text, type_name] = [&whole[..colon], &whole[colon + COLON.len()..]];
        let known = self.types.iter().find(|(name, _)| name == type_name);
        let typ = match known {
            Some((_, typ)) => *typ,
            None => {
                let typ = self.maker.user_type(type_name);
                self.types.push((type_name.to_string(), typ));
                typ
            }
        };
        self.literals.push([self.maker.name(text), typ]);
    }

    /// The literals of every split of a text, but for a colon at its end: a type
    /// has a name.
    fn add_all(&mut self, whole: &str) {
        for (colon, _) in whole.match_indices(COLON) {
            if colon + COLON.len() < whole.len() {
                self.add(whole, colon);
            }
        }
    }

    fn book(mut self) -> Maker {
        in_two_orders(&mut self.maker, &self.literals);
        self.maker
    }
}

/// The text with its last letter changed; none if it has no letter.
fn ending_otherwise(text: &str) -> Option<String> {
    let last = text.len().checked_sub(1)?;
    Some(changed(text, last))
}

/// Texts with two colons, so many letters between them and so many behind, and
/// up to so many before. Each stands there by both splits, with its last
/// letter before, between and behind the colons changed, and with either colon
/// replaced.
pub fn two_colons(most_before: usize, between: usize, behind: usize) -> Maker {
    let mut splits = Splits::default();
    let [middle, right] = [between, behind].map(|length| letters(length).to_lowercase());
    for length in 0..=most_before {
        let left = letters(length);
        let joined = |parts: [&str; 3]| parts.join(COLON);
        splits.add_all(&joined([&left, &middle, &right]));
        if let Some(left) = ending_otherwise(&left) {
            splits.add_all(&joined([&left, &middle, &right]));
        }
        if let Some(middle) = ending_otherwise(&middle) {
            splits.add_all(&joined([&left, &middle, &right]));
        }
        if let Some(right) = ending_otherwise(&right) {
            splits.add_all(&joined([&left, &middle, &right]));
        }
        for colons in [[COLON, NO_COLON], [NO_COLON, COLON]] {
            let [first, second] = colons;
            splits.add_all(&[&left, first, &middle, second, &right].concat());
        }
    }
    splits.book()
}

/// A text with colons at two places by both splits, the text with each letter
/// changed by both splits, and with either colon replaced.
pub fn each_letter_changed(first: usize, second: usize) -> Maker {
    let mut splits = Splits::default();
    let mut whole = letters(SPLIT_LETTERS);
    for colon in [first, second] {
        whole.replace_range(colon..colon + COLON.len(), COLON);
    }
    splits.add_all(&whole);
    for place in 0..SPLIT_LETTERS {
        splits.add_all(&changed(&whole, place));
    }
    splits.book()
}

/// Texts of colons alone, and of words between colons, by every split.
pub fn several_colons() -> Maker {
    let mut splits = Splits::default();
    for count in 1..=COLONS {
        splits.add_all(&COLON.repeat(count));
    }
    for whole in [
        "a:b:c:d:e",
        "a:b:c:d:f",
        "b:b:c:d:e",
        "a::c::e",
        ":a:",
        ":a",
    ] {
        splits.add_all(whole);
    }
    splits.book()
}

/// A long text with many colons, and three that differ from it in one letter
/// at the begin, in the middle and at the end, by every split. Each has its
/// letters once, so that the names overlap.
pub fn long_parts() -> Maker {
    let mut m = Maker::default();
    let part = "x".repeat(APART - 1);
    let whole = [&part[..]; LONG / APART].join(COLON);
    let mut literals = Vec::new();
    // In the middle stands a colon.
    let texts = [0, whole.len() / 2 + 1, whole.len() - 1].map(|place| changed(&whole, place));
    for text in [&[whole], &texts[..]].concat() {
        let first = m.letters.len() as u32;
        m.letters.extend_from_slice(text.as_bytes());
        for (colon, _) in text.match_indices(COLON) {
            let [colon, end] = [colon, text.len()].map(|place| place as u32);
            let name = m.names.len() as u32;
            m.names.push([first, colon]);
            m.names.push([first + colon + 1, end - colon - 1]);
            m.types.push([name + 1]);
            literals.push([name, FIRST_USER_TYPE + m.types.len() as u32 - 1]);
        }
    }
    in_two_orders(&mut m, &literals);
    m
}

/// So many user types of one name, by its own record or by a shared one.
pub fn types_of_one_name(types: usize) -> Maker {
    let mut m = Maker::default();
    let names = ["", "a", "b"].map(|text| m.name(text));
    let own = types / 2;
    for _ in 0..own {
        m.user_type("t");
    }
    m.types.resize(types, m.types[0]);
    let literals: Vec<Literal> = (FIRST_USER_TYPE..)
        .take(types)
        .flat_map(|typ| names.map(|name| [name, typ]))
        .collect();
    in_two_orders(&mut m, &literals);
    m
}

/// User types that are called as the built-in ones, nearly, or end so.
pub fn types_called_as_built_in() -> Maker {
    let mut m = Maker::default();
    let names = [
        "int", "bool", "int", "bool", "Int", "Bool", "in", "boo", "int ", " ", "x:int", "x:bool",
    ];
    let mut types = vec![BOOL, INT];
    types.extend(names.map(|name| m.user_type(name)));
    let mut literals = Vec::new();
    for text in ["a", "", "a:x", ":x", "x", "int", "a:int"] {
        let name = m.name(text);
        literals.extend(types.iter().map(|typ| [name, *typ]));
    }
    in_two_orders(&mut m, &literals);
    m
}
