//! How the name of a type, constant or function goes to a solver: as a symbol
//! of SMT-LIB 2.6, section 3.1. Where a name differs from its symbol the
//! standard decides over the Dafny text, the second departure.
//!
//! The strict reader of `smtlib` has words and letters of its own: it is to
//! find what is wrong here.

use std::borrow::Cow;

const BAR: u8 = b'|';
const BACKSLASH: u8 = b'\\';
/// What a simple symbol may hold besides letters and digits.
const SIGNS: &[u8] = b"~!@$%^&*_-+=<>.?/";

/// The reserved words: the general ones, and the commands of section 3.9.
const GENERAL_WORDS: &str = "! _ as BINARY DECIMAL exists HEXADECIMAL forall let match NUMERAL \
    par STRING";
const COMMANDS: &str = "assert check-sat check-sat-assuming declare-const declare-datatype \
    declare-datatypes declare-fun declare-sort define-fun define-fun-rec define-funs-rec \
    define-sort echo exit get-assertions get-assignment get-info get-model get-option get-proof \
    get-unsat-assumptions get-unsat-core get-value pop push reset reset-assertions set-info \
    set-logic set-option";

/// What is printed for a name.
pub fn symbol_text(name: &[u8]) -> Cow<'_, [u8]> {
    if is_simple(name) || is_quoted(name) {
        Cow::Borrowed(name)
    } else {
        Cow::Owned([&[BAR], name, &[BAR]].concat())
    }
}

/// A name that can go to a solver as a symbol.
pub fn is_name(name: &[u8]) -> bool {
    is_quoted(name) || !(name.is_empty() || has_bar(name))
}

/// The symbol that a name stands for: bars around the whole do not count.
pub fn bare(name: &[u8]) -> &[u8] {
    between_bars(name).unwrap_or(name)
}

/// A symbol that stands without bars. Reserved words are none.
pub fn is_simple(name: &[u8]) -> bool {
    let begins = name.first().is_some_and(|first| !first.is_ascii_digit());
    let is_letter = |byte: &u8| byte.is_ascii_alphanumeric() || SIGNS.contains(byte);
    begins && name.iter().all(is_letter) && !is_reserved(name)
}

/// Already between bars, of which a lone bar is only one.
pub fn is_quoted(name: &[u8]) -> bool {
    between_bars(name).is_some()
}

/// What stands between the outer bars, where nothing inside ends the symbol.
fn between_bars(name: &[u8]) -> Option<&[u8]> {
    let inside = name.strip_prefix(&[BAR])?.strip_suffix(&[BAR])?;
    (!has_bar(inside)).then_some(inside)
}

/// A bar or a backslash anywhere: no symbol holds it inside.
pub fn has_bar(text: &[u8]) -> bool {
    text.iter().any(|byte| [BAR, BACKSLASH].contains(byte))
}

fn is_reserved(word: &[u8]) -> bool {
    let mut words = [GENERAL_WORDS, COMMANDS]
        .into_iter()
        .flat_map(str::split_whitespace);
    words.any(|reserved| reserved.as_bytes() == word)
}
