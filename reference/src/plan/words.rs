//! The form's own words, and how names and strings are written.

use crate::smtlib::signatures::signature;
use crate::smtlib::words::{is_reserved, is_simple_symbol};

/// The words that items begin with.
pub const LETTERS: &str = "letters";
pub const LISTS: &str = "lists";
pub const TYPE: &str = "type";
pub const CONSTANT: &str = "constant";
pub const FUNCTION: &str = "function";
pub const AXIOM: &str = "axiom";
pub const PATTERN: &str = "pattern";
pub const TERM: &str = "term";
pub const NODE: &str = "node";
pub const GOAL: &str = "goal";

/// Keywords.
pub const NAME_KEY: &str = ":name";
pub const EXPLAINED_BY_KEY: &str = ":explained-by";
pub const EXPLAINS_KEY: &str = ":explains";
pub const TRACE_KEY: &str = ":trace";
pub const PATTERN_KEY: &str = ":pattern";

/// The types that every plan has, and the node above all others.
pub const BOOL_TYPE: &str = "Bool";
pub const INT_TYPE: &str = "Int";
pub const ROOT_NODE: &str = "root";

/// The words of terms.
pub const TRUE: &str = "true";
pub const FALSE: &str = "false";
pub const ITE: &str = "ite";
pub const LET: &str = "let";
pub const FORALL: &str = "forall";
pub const EXISTS: &str = "exists";
pub const ANNOTATED: &str = "!";
pub const LITERAL: &str = "literal";
pub const BUILT_IN: &str = "builtin";
pub const TAG: &str = "%tag";

/// Between a literal and its type where it is printed.
pub const LITERAL_SEPARATOR: &str = ":";

const TERM_WORDS: [&str; 10] = [
    TRUE, FALSE, ITE, LET, FORALL, EXISTS, ANNOTATED, LITERAL, BUILT_IN, TAG,
];

const BAR: char = '|';
const MINUS: u8 = b'-';
const BACKSLASH: char = '\\';
const QUOTE: char = '"';

/// An operator that may stand without `builtin`. Only these may, so that a
/// misspelt function is not taken for an operator.
pub fn is_operator(text: &str) -> bool {
    signature(text.as_bytes()).is_some()
}

/// What no constant, function or term can be called in a plan.
pub fn is_reserved_symbol(text: &str) -> bool {
    TERM_WORDS.contains(&text) || is_operator(text) || is_reserved(text.as_bytes())
}

pub fn is_reserved_type(text: &str) -> bool {
    [BOOL_TYPE, INT_TYPE].contains(&text) || is_reserved(text.as_bytes())
}

pub fn is_reserved_node(text: &str) -> bool {
    text == ROOT_NODE
}

/// Digits, with a minus before them or not.
pub fn is_integer(text: &str) -> bool {
    let digits = text.strip_prefix('-').unwrap_or(text);
    !digits.is_empty() && digits.bytes().all(|byte| byte.is_ascii_digit())
}

/// A symbol that needs no bars.
pub fn is_simple(text: &str) -> bool {
    is_simple_symbol(text.as_bytes()) && !is_integer(text)
}

/// The bars' content may have any letters but these two, by SMT-LIB.
pub fn may_stand_in_bars(letter: char) -> bool {
    letter != BAR && letter != BACKSLASH
}

/// A symbol as the text has it.
pub fn symbol(text: &str) -> String {
    if is_simple(text) {
        text.to_string()
    } else {
        between_bars(text)
    }
}

/// The name that a symbol's record has if none is given. It goes without bars,
/// since a literal of a type with bars can't be sent; where the solver needs
/// them they are printed. Those that would not be printed are kept.
pub fn name_of_symbol(text: &str) -> String {
    if text.is_empty() || begins_as_negative(text.as_bytes()) {
        between_bars(text)
    } else {
        text.to_string()
    }
}

/// z3 reads the begin of such a symbol as a number, where it has no bars.
fn begins_as_negative(text: &[u8]) -> bool {
    matches!(text, [MINUS, digit, ..] if digit.is_ascii_digit())
}

fn between_bars(text: &str) -> String {
    format!("{BAR}{text}{BAR}")
}

/// A string as the text has it: a quote inside is doubled.
pub fn string(text: &str) -> String {
    let doubled = text.replace(QUOTE, "\"\"");
    format!("{QUOTE}{doubled}{QUOTE}")
}

/// The letters of a book's name; they are ASCII.
pub fn text_of(letters: &[u8]) -> String {
    letters.iter().copied().map(char::from).collect()
}
