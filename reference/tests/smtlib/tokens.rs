//! Tokens, good and bad, each where a term stands.

use leskofar_reference::smtlib::Reader;

/// Reads a text as a term, with two constants declared, and gives where and
/// why it is refused.
fn read(text: &str) -> Result<(), (usize, String)> {
    let mut reader = Reader::default();
    let declared = reader.read(b"(declare-fun x () Int)(declare-fun |a b| () Int)");
    assert_eq!(declared, Ok(2));
    let read = reader.read_term(text.as_bytes());
    read.map_err(|refused| (refused.at, refused.reason))
}

#[test]
fn numerals() {
    for numeral in ["0", "7", "10", "18446744073709551616", "(- 5)", "(- 0)"] {
        assert_eq!(read(numeral), Ok(()), "{numeral}");
    }
    for (text, at, reason) in [
        ("-5", 0, "`-5` is not declared"),
        ("(- -5)", 3, "`-5` is not declared"),
        ("(-5)", 3, "a closing parenthesis, expected a term"),
        ("(-5 x)", 1, "`-5` is not declared"),
        ("+5", 0, "`+5` is not declared"),
        ("05", 0, "`05` begins with a zero"),
        ("00", 0, "`00` begins with a zero"),
        ("(- 05)", 3, "`05` begins with a zero"),
        ("5x", 0, "`5x` is no number"),
        ("5-", 0, "`5-` is no number"),
        ("5.", 0, "`5.` is no number"),
        ("5.x", 0, "`5.x` is no number"),
        ("05.0", 0, "`05.0` begins with a zero"),
    ] {
        assert_eq!(read(text), Err((at, reason.into())), "{text}");
    }
}

/// They are tokens, but no terms of Core and Ints.
#[test]
fn other_constants() {
    for constant in [
        "1.0",
        "0.05",
        "1.50",
        "#xA0f",
        "#b01",
        "\"\"",
        "\"a\"\"b\"",
        "\"a\nb\"",
    ] {
        let shown = constant.as_bytes().escape_ascii();
        let reason = format!("`{shown}`, where only numerals are constants");
        assert_eq!(read(constant), Err((0, reason)));
    }
    for (text, at, reason) in [
        ("#", 0, "`#` begins no token"),
        ("#c0", 0, "`#c0` begins no token"),
        ("#x", 0, "`#x` is no number of its base"),
        ("#xG", 0, "`#xG` is no number of its base"),
        ("#b2", 0, "`#b2` is no number of its base"),
        ("\"a", 0, "a string without its end"),
        ("\"a\"\"", 0, "a string without its end"),
        ("\"a\x01\"", 2, "`\\x01` is not printable"),
        ("\"a\"x", 3, "`x` right behind `\\\"a\\\"`"),
    ] {
        assert_eq!(read(text), Err((at, reason.into())), "{text}");
    }
}

#[test]
fn symbols() {
    for symbol in ["x", "|x|", "|a b|", " x\t\r\n", "x ; (", "; |\n x"] {
        assert_eq!(read(symbol), Ok(()), "{symbol}");
    }
    for (text, at, reason) in [
        ("X", 0, "`X` is not declared"),
        ("|X|", 0, "`X` is not declared"),
        ("|5|", 0, "`5` is not declared"),
        ("||", 0, "`` is not declared"),
        ("|let|", 0, "`let` is not declared"),
        ("let", 0, "the reserved word `let`, expected a term"),
        ("|x", 0, "a bar without its second one"),
        ("|x\\|", 2, "a backslash between bars"),
        ("|x\x7F|", 2, "`\\x7f` is not printable"),
        ("x|x|", 1, "`|` right behind `x`"),
        ("|x|x", 3, "`x` right behind `|x|`"),
        ("x\"\"", 1, "`\\\"` right behind `x`"),
        ("x'", 1, "`\\'` right behind `x`"),
        ("x:", 1, "`:` right behind `x`"),
        ("[x]", 0, "`[` begins no token"),
        ("\0", 0, "`\\x00` begins no token"),
        ("{", 0, "`{` begins no token"),
        (",", 0, "`,` begins no token"),
        ("\u{E9}", 0, "`\\xc3` begins no token"),
        ("x\x0B", 1, "`\\x0b` right behind `x`"),
    ] {
        assert_eq!(read(text), Err((at, reason.into())), "{text:?}");
    }
}

#[test]
fn keywords_are_no_terms() {
    for (text, at, reason) in [
        (":pattern", 0, "`:pattern`, expected a term"),
        (":", 0, "a colon without a simple symbol"),
        (":5", 0, "a colon without a simple symbol"),
        (": x", 0, "a colon without a simple symbol"),
        (":a:b", 2, "`:` right behind `:a`"),
    ] {
        assert_eq!(read(text), Err((at, reason.into())), "{text}");
    }
}
