//! Makes of a book one whose symbols print apart: its types, constants and
//! functions get names of their own. In half of them literals of one text have
//! one type, so that they are told apart as document 02 has it.

use crate::book::{kind, FIRST_USER_TYPE};
use crate::maker::Maker;
use crate::name_faults::{text, TAG};
use crate::random::{Random, OFTEN};
use crate::told_apart::does_print_apart;
use std::collections::{BTreeSet, HashMap};

/// How a name is made of a letter and a number: as a simple symbol, as one that
/// gets bars, and as one that has them.
type Form = fn(char, usize) -> String;
const SIMPLE: Form = |letter, number| format!("{letter}{number}");
const BLANK: Form = |letter, number| format!("{letter} {number}");
const COLON: Form = |letter, number| format!("{letter}:{number}");
const IN_PARENTHESES: Form = |letter, number| format!("({letter} {number})");
const BARRED: Form = |letter, number| format!("|{letter}{number}|");
const BARRED_BLANK: Form = |letter, number| format!("|{letter} {number}|");
const FORMS: [Form; 6] = [SIMPLE, BLANK, COLON, IN_PARENTHESES, BARRED, BARRED_BLANK];
/// The first of them, which the name of a literal's type may have.
const WITHOUT_BARS: usize = 4;

/// Sorts are a name space of their own, so they share a letter with constants.
const SORT_OR_CONSTANT: char = 'x';
const FUNCTION: char = 'f';

/// A book that prints apart, of those that are drawn: operators may have any
/// names, and some are drawn anew.
pub fn apart_book(random: &mut Random, draw: impl Fn(&mut Random) -> Maker) -> Maker {
    loop {
        let mut m = draw(random);
        tell_apart(random, &mut m);
        if does_print_apart(&m.book()) {
            return m;
        }
    }
}

/// The names are added to those of the book, which is a good one.
fn tell_apart(random: &mut Random, m: &mut Maker) {
    if random.one_in(OFTEN) {
        give_texts(m);
    }
    let of_literals = types_of_literals(m);
    for number in 0..m.types.len() {
        let is_of_literal = of_literals.contains(&(FIRST_USER_TYPE + number as u32));
        let forms = if is_of_literal {
            &FORMS[..WITHOUT_BARS]
        } else {
            &FORMS
        };
        m.types[number][0] = m.name(&random.pick(forms)(SORT_OR_CONSTANT, number));
    }
    for number in 0..m.constants.len() {
        m.constants[number][0] = m.name(&random.pick(&FORMS)(SORT_OR_CONSTANT, number));
    }
    for number in 0..m.functions.len() {
        m.functions[number][0] = m.name(&random.pick(&FORMS)(FUNCTION, number));
    }
}

/// Literals of one text have one type: one of another type gets a text of its
/// own, so that sorts stay good. `%tag` may have any.
fn give_texts(m: &mut Maker) {
    let mut types = HashMap::new();
    let mut names = HashMap::new();
    for term in 0..m.terms.len() {
        let [kind::CUSTOM_LITERAL, name, typ, ..] = m.terms[term] else {
            continue;
        };
        let s = text(m, name);
        if s != TAG && *types.entry(s.clone()).or_insert(typ) != typ {
            let own = format!("{s} {typ}");
            m.terms[term][1] = *names.entry(own).or_insert_with_key(|own| m.name(own));
        }
    }
}

fn types_of_literals(m: &Maker) -> BTreeSet<u32> {
    let terms = m.terms.iter();
    let types = terms.filter_map(|term| match term {
        [kind::CUSTOM_LITERAL, _, typ, ..] => Some(*typ),
        _ => None,
    });
    types.collect()
}
