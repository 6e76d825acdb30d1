//! Which strings are a single token of SMT-LIB that may name an operator.

use crate::attack::readable::is_simple;

const RESERVED: [&str; 13] = [
    "!",
    "_",
    "as",
    "BINARY",
    "DECIMAL",
    "exists",
    "HEXADECIMAL",
    "forall",
    "let",
    "match",
    "NUMERAL",
    "par",
    "STRING",
];

/// With bars a symbol is the same one.
pub fn without_bars(name: &str) -> &str {
    between_bars(name).unwrap_or(name)
}

fn between_bars(name: &str) -> Option<&str> {
    name.strip_prefix('|')?.strip_suffix('|')
}

/// A symbol, with bars or without, that is no reserved word; or a number.
pub fn may_name_operator(name: &str) -> bool {
    let is_symbol = match between_bars(name) {
        Some(text) => !text.contains(['|', '\\']),
        None => is_simple(name),
    };
    let is_reserved = RESERVED.contains(&without_bars(name));
    (is_symbol && !is_reserved) || is_number(name)
}

fn is_number(name: &str) -> bool {
    let all = |text: &str, is_digit: fn(&u8) -> bool| {
        !text.is_empty() && text.bytes().all(|byte| is_digit(&byte))
    };
    if let Some(digits) = name.strip_prefix("#x") {
        return all(digits, u8::is_ascii_hexdigit);
    }
    if let Some(digits) = name.strip_prefix("#b") {
        return all(digits, |digit| matches!(digit, b'0' | b'1'));
    }
    let (whole, fraction) = name.split_once('.').unwrap_or((name, "0"));
    all(whole, u8::is_ascii_digit) && all(fraction, u8::is_ascii_digit)
}
