//! The ways in which a name makes a book 28, for tests: written apart from what
//! the book test asks, on whole strings.

use crate::book::{kind, FIRST_USER_TYPE};
use crate::maker::Maker;
use std::collections::BTreeSet;

/// What has a name, and what is wrong with it.
pub type Way = (&'static str, &'static str);

const DECLARED: [&str; 3] = ["type", "constant", "function"];
const EMPTY: &str = "empty";
const BAR: &str = "a bar";
const BACKSLASH: &str = "a backslash";
const BAR_INSIDE: &str = "a bar between bars";
const BACKSLASH_INSIDE: &str = "a backslash between bars";
const FAULTS: [&str; 5] = [EMPTY, BAR, BACKSLASH, BAR_INSIDE, BACKSLASH_INSIDE];

const TEXT: &str = "a literal's text";
const TYPE: &str = "a literal's type";
const AROUND: &str = "bars around it only";
/// Of a literal neither part may have bars, not even around it.
const LITERAL_WAYS: [Way; 5] = [
    (TEXT, BAR),
    (TEXT, BACKSLASH),
    (TYPE, AROUND),
    (TYPE, BAR),
    (TYPE, BACKSLASH),
];
/// The literal text that is no name.
pub const TAG: &str = "%tag";

/// Every way there is.
pub fn all_ways() -> BTreeSet<Way> {
    let declared = DECLARED.into_iter();
    let declared = declared.flat_map(|what| FAULTS.map(|fault| (what, fault)));
    declared.chain(LITERAL_WAYS).collect()
}

/// The ways in which a book's names are bad; its fields are in range.
pub fn ways_of(m: &Maker) -> BTreeSet<Way> {
    let mut ways = BTreeSet::new();
    let names_of = [
        m.types.iter().map(|[name]| *name).collect::<Vec<u32>>(),
        m.constants.iter().map(|[name, _]| *name).collect(),
        m.functions.iter().map(|[name, ..]| *name).collect(),
    ];
    for (what, names) in DECLARED.into_iter().zip(names_of) {
        let faults = names.iter().flat_map(|name| faults_of(&text(m, *name)));
        ways.extend(faults.map(|fault| (what, fault)));
    }
    for [kind, s, typ, ..] in &m.terms {
        if *kind == kind::CUSTOM_LITERAL && text(m, *s) != TAG {
            ways.extend(marks_of(&text(m, *s)).map(|mark| (TEXT, mark)));
            ways.extend(type_marks(m, *typ).map(|mark| (TYPE, mark)));
        }
    }
    ways
}

/// Whether a name may be that of a type, constant or function.
pub fn may_be_declared(name: &str) -> bool {
    faults_of(name).is_empty()
}

/// The first name of a book that may be declared.
pub fn declarable_name(m: &Maker) -> Option<u32> {
    let mut names = 0..m.names.len() as u32;
    names.find(|name| may_be_declared(&text(m, *name)))
}

/// Whether a name may be a part of a literal's.
pub fn may_be_in_literal(name: &str) -> bool {
    name == TAG || !name.contains(['|', '\\'])
}

/// The text of a name.
pub fn text(m: &Maker, name: u32) -> String {
    let [start, length] = m.names[name as usize].map(|number| number as usize);
    let letters = m.letters[start..start + length].iter();
    letters.map(|letter| char::from(*letter)).collect()
}

/// The text of a user type's name; None for the two that are built in.
pub fn type_text(m: &Maker, typ: u32) -> Option<String> {
    let [name] = m.types[typ.checked_sub(FIRST_USER_TYPE)? as usize];
    Some(text(m, name))
}

fn faults_of(name: &str) -> Vec<&'static str> {
    if name.is_empty() {
        return vec![EMPTY];
    }
    let (looked_at, bar, backslash) = match inside_of(name) {
        Some(inside) => (inside, BAR_INSIDE, BACKSLASH_INSIDE),
        None => (name, BAR, BACKSLASH),
    };
    let faults = [('|', bar), ('\\', backslash)].into_iter();
    let met = faults.filter(|(letter, _)| looked_at.contains(*letter));
    met.map(|(_, fault)| fault).collect()
}

/// What stands between two bars around a name.
fn inside_of(name: &str) -> Option<&str> {
    let last = name.len().checked_sub(1)?;
    let is_between = last > 0 && name.starts_with('|') && name.ends_with('|');
    is_between.then(|| &name[1..last])
}

fn marks_of(text: &str) -> impl Iterator<Item = &'static str> + use<> {
    let marks = [('|', BAR), ('\\', BACKSLASH)];
    let met = marks.map(|(letter, mark)| text.contains(letter).then_some(mark));
    met.into_iter().flatten()
}

/// A type that is good by itself has bars around it, if any.
fn type_marks(m: &Maker, typ: u32) -> impl Iterator<Item = &'static str> + use<> {
    let name = type_text(m, typ).unwrap_or_default();
    let is_around = name.contains('|') && may_be_declared(&name);
    marks_of(&name).map(move |mark| if is_around { AROUND } else { mark })
}
