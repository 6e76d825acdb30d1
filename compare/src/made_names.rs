//! Books of literals whose names are nearly alike: in one letter, in how they
//! begin or end, in their places.

use crate::made_literals::{Literal, FIRST_NAME};
use leskofar_reference::book::{kind, FIRST_USER_TYPE, INT};
use leskofar_reference::book_test::{FIRST_LETTER, LAST_LETTER};
use leskofar_reference::maker::Maker;

/// Names are compared in steps of so many letters.
pub const STEP: usize = 8;
/// So many letters have every border of five steps among them.
pub const LONGEST: usize = 5 * STEP;
/// What stands before the first name, to move it.
const BEFORE: &str = " ";
/// Lengths about the borders of the steps.
const LENGTHS: [usize; 10] = [0, 1, 7, 8, 9, 15, 16, 17, 24, 33];
/// How often a pattern comes where names overlap, so that all are inside.
const REPEATED: usize = 8 * STEP;
/// Another letter for every letter.
const OTHER_BIT: u8 = 1;

/// A text of so many letters, all different and no colon. None of them is what
/// no name has inside, nor becomes it when it is changed.
pub fn letters(length: usize) -> String {
    let is_left_out = |letter: &u8| [*letter, letter ^ OTHER_BIT].contains(&b'\\');
    let letters = (b'A'..).filter(|letter| !is_left_out(letter));
    letters.take(length).map(char::from).collect()
}

/// The text with another letter at a place.
pub fn changed(text: &str, place: usize) -> String {
    let mut bytes = text.as_bytes().to_vec();
    bytes[place] ^= OTHER_BIT;
    String::from_utf8(bytes).expect("letters are ASCII")
}

/// The text with the letters of two places exchanged.
fn swapped(text: &str, place: usize, other: usize) -> String {
    let mut bytes = text.as_bytes().to_vec();
    bytes.swap(place, other);
    String::from_utf8(bytes).expect("letters are ASCII")
}

/// Node 1 with the literals as arguments, and node 2 beside it with others of
/// the same from the last to the first; its term is the last of the book. The
/// operator has no letters of its own, so that a literal's may be the last.
pub fn in_two_orders(m: &mut Maker, literals: &[Literal]) {
    let forwards: Vec<Literal> = literals.to_vec();
    let backwards: Vec<Literal> = literals.iter().rev().copied().collect();
    for literals in [forwards, backwards] {
        let terms = literals.into_iter();
        let args: Vec<u32> = terms.map(|l| m.term(kind::CUSTOM_LITERAL, l)).collect();
        let [start, count] = m.list(&args);
        let premise = m.term(kind::BUILT_IN, [FIRST_NAME, start, count]);
        m.context(0, premise);
    }
}

/// A book in which names begin behind so many other letters.
fn moved(offset: usize) -> Maker {
    let mut m = Maker::default();
    m.name(&BEFORE.repeat(offset));
    m
}

/// A text of so many letters, the text with each letter changed, with letters
/// exchanged that are neighbours or a step apart, and the text once more.
fn nearly(length: usize) -> Vec<String> {
    let text = letters(length);
    let mut texts = vec![text.clone()];
    texts.extend((0..length).map(|place| changed(&text, place)));
    for apart in [1, STEP] {
        texts.extend((apart..length).map(|place| swapped(&text, place - apart, place)));
    }
    texts.push(text);
    texts
}

/// All literals but the last are of different names.
pub fn nearly_one_text(length: usize, offset: usize) -> Maker {
    let mut m = moved(offset);
    let literals: Vec<Literal> = nearly(length)
        .iter()
        .map(|text| [m.name(text), INT])
        .collect();
    in_two_orders(&mut m, &literals);
    m
}

/// The same in the types' names, of which there may not be so many: each
/// letter is changed, and none exchanged.
pub fn nearly_one_type(length: usize, offset: usize) -> Maker {
    let mut m = moved(offset);
    let text = letters(length);
    let mut names = vec![text.clone()];
    names.extend((0..length).map(|place| changed(&text, place)));
    names.push(text);
    let s = m.name(&letters(offset));
    let literals: Vec<Literal> = names.iter().map(|name| [s, m.user_type(name)]).collect();
    in_two_orders(&mut m, &literals);
    m
}

/// Ranges of a text that begin with it, or that end with it, of every length from
/// a shortest one on.
fn ranges(ends: bool, shortest: usize) -> Vec<[usize; 2]> {
    let range = |length| [if ends { LONGEST - length } else { 0 }, length];
    (shortest..=LONGEST).map(range).collect()
}

/// Names that are each other's begins, or ends; as names of types too.
pub fn begins_or_ends(ends: bool, of_types: bool, offset: usize) -> Maker {
    let mut m = moved(offset);
    let first = m.letters.len();
    let whole = m.name(&letters(LONGEST));
    let mut literals = Vec::new();
    // A type has a name.
    for [start, length] in ranges(ends, usize::from(of_types)) {
        let name = m.names.len() as u32;
        m.names.push([(first + start) as u32, length as u32]);
        if of_types {
            m.types.push([name]);
            literals.push([whole, FIRST_USER_TYPE + m.types.len() as u32 - 1]);
        } else {
            literals.push([name, INT]);
        }
    }
    in_two_orders(&mut m, &literals);
    m
}

/// Names that overlap, in letters that come again after so many.
pub fn overlapping_names(period: usize) -> Maker {
    let mut m = Maker {
        letters: letters(period).repeat(REPEATED).into_bytes(),
        ..Maker::default()
    };
    let mut literals = Vec::new();
    for length in LENGTHS {
        for start in 0..=2 * period {
            literals.push([m.names.len() as u32, INT]);
            m.names.push([start as u32, length as u32]);
        }
    }
    in_two_orders(&mut m, &literals);
    m
}

/// Names of the first and the last letter that there are, of every length.
pub fn border_letters() -> Maker {
    let mut m = Maker::default();
    let mut literals = Vec::new();
    for letter in [FIRST_LETTER, LAST_LETTER] {
        for length in 1..=LONGEST {
            let text = char::from(letter).to_string().repeat(length);
            literals.push([m.name(&text), INT]);
        }
    }
    in_two_orders(&mut m, &literals);
    m
}

/// A literal with a byte that is no letter at a place of its name.
pub fn with_byte(byte: u8, place: usize) -> Maker {
    let mut m = Maker::default();
    let name = m.name(&letters(LONGEST));
    m.letters[place] = byte;
    in_two_orders(&mut m, &[[name, INT]]);
    m
}
