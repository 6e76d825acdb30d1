//! What a solver reads as one token of SMT-LIB.

use crate::smtlib::words::is_simple_symbol;
use crate::symbols::is_quoted;

/// A symbol, reserved or not.
pub fn is_symbol(name: &[u8]) -> bool {
    is_quoted(name) || is_simple_symbol(name)
}

/// A number as SMT-LIB writes it: `10`, `1.5`, `#xA0`, `#b10`.
pub fn is_number(name: &[u8]) -> bool {
    if let Some(digits) = name.strip_prefix(HEXADECIMAL) {
        return is_row(digits, u8::is_ascii_hexdigit);
    }
    if let Some(digits) = name.strip_prefix(BINARY) {
        return is_row(digits, |digit| BINARY_DIGITS.contains(digit));
    }
    is_digits_or_decimal(name) && !has_leading_zero(name)
}

/// A symbol that some solver takes for a number where it stands without bars, as
/// a simple one does.
pub fn looks_like_negative_number(symbol: &[u8]) -> bool {
    symbol.strip_prefix(b"-").is_some_and(is_digits_or_decimal)
}

const HEXADECIMAL: &[u8] = b"#x";
const BINARY: &[u8] = b"#b";
const BINARY_DIGITS: &[u8] = b"01";
const POINT: u8 = b'.';

/// Digits, or digits on both sides of a point.
fn is_digits_or_decimal(text: &[u8]) -> bool {
    let is_digits = |part: &[u8]| is_row(part, u8::is_ascii_digit);
    match text.iter().position(|byte| *byte == POINT) {
        None => is_digits(text),
        Some(point) => is_digits(&text[..point]) && is_digits(&text[point + 1..]),
    }
}

/// The whole part of a number is 0, or begins with another digit.
fn has_leading_zero(number: &[u8]) -> bool {
    matches!(number, [b'0', second, ..] if second.is_ascii_digit())
}

fn is_row(text: &[u8], is_part: impl Fn(&u8) -> bool) -> bool {
    !text.is_empty() && text.iter().all(is_part)
}
