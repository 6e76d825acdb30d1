//! What a name prints as, and which names can go to a solver: tables by hand.
//! The reserved words are those of the strict reader, which shares no list with
//! what prints.

use leskofar_reference::smtlib::words::RESERVED;
use leskofar_reference::symbols::{bare, is_name, is_quoted, is_simple, symbol_text};

/// Of the printable letters, those that are a simple symbol alone, those that
/// need bars, and the two that no symbol has.
const SIMPLE_LETTERS: &str = "$%&*+-./<=>?@ABCDEFGHIJKLMNOPQRSTUVWXYZ^abcdefghijklmnopqrstuvwxyz~";
const BARRED_LETTERS: &str = " !\"#'(),0123456789:;[]_`{}";
const BAD_LETTERS: &str = "|\\";

fn text(name: &str) -> String {
    String::from_utf8(symbol_text(name.as_bytes()).into_owned()).expect("ASCII")
}

/// A name that prints as it is, or with bars around it.
fn assert_prints(name: &str, expected: &str) {
    assert_eq!(text(name), expected);
    // Printed once more it stays.
    assert_eq!(text(expected), expected);
    assert!(is_name(name.as_bytes()), "{name}");
    assert_eq!(bare(expected.as_bytes()), bare(name.as_bytes()), "{name}");
}

fn assert_bad(name: &str) {
    assert!(!is_name(name.as_bytes()), "{name}");
    assert!(!is_simple(name.as_bytes()) && !is_quoted(name.as_bytes()));
}

#[test]
fn each_printable_letter_alone() {
    let mut letters: Vec<char> = [SIMPLE_LETTERS, BARRED_LETTERS, BAD_LETTERS]
        .concat()
        .chars()
        .collect();
    letters.sort();
    let printable: Vec<char> = (0x20u8..=0x7E).map(char::from).collect();
    assert_eq!(letters, printable);
    for letter in SIMPLE_LETTERS.chars() {
        assert_prints(&letter.to_string(), &letter.to_string());
    }
    for letter in BARRED_LETTERS.chars() {
        assert_prints(&letter.to_string(), &format!("|{letter}|"));
    }
    for letter in BAD_LETTERS.chars() {
        assert_bad(&letter.to_string());
    }
}

/// A letter that is simple alone is so anywhere, and so are digits but first.
#[test]
fn each_printable_letter_in_a_name() {
    for letter in SIMPLE_LETTERS.chars().chain("0123456789!_".chars()) {
        for name in [format!("x{letter}"), format!("x{letter}y")] {
            assert_prints(&name, &name);
        }
    }
    for letter in BARRED_LETTERS
        .chars()
        .filter(|c| !"0123456789!_".contains(*c))
    {
        for name in [
            format!("a{letter}"),
            format!("{letter}a"),
            format!("a{letter}b"),
        ] {
            assert_prints(&name, &format!("|{name}|"));
        }
    }
    for digit in 0..10 {
        assert_prints(&format!("{digit}a"), &format!("|{digit}a|"));
    }
}

#[test]
fn reserved_words_and_what_is_near_them() {
    for word in RESERVED {
        assert_prints(word, &format!("|{word}|"));
        assert_prints(&format!("|{word}|"), &format!("|{word}|"));
        // One letter more, before and behind, and with other bars of its own.
        for longer in [format!("{word}s"), format!("a{word}"), format!("{word}-")] {
            if !RESERVED.contains(&longer.as_str()) {
                assert_prints(&longer, &longer);
            }
        }
        let shorter = &word[..word.len() - 1];
        match shorter {
            "" => assert_bad(""),
            _ if RESERVED.contains(&shorter) => assert_prints(shorter, &format!("|{shorter}|")),
            _ => assert_prints(shorter, shorter),
        }
        for other in [word.to_uppercase(), word.to_lowercase()] {
            if other != word {
                assert_prints(&other, &other);
            }
        }
    }
}

#[test]
fn names_that_print_as_they_are() {
    for name in [
        "a", "box_1", "true", "not", "Bool", "Int", "ite", "-5", "-", "+", "<=", "@a", ".a", "a.b",
        "%tag", "probe%0", "||", "| |", "|abc|", "|red 40|", "|let|", "|5|", "|\"|", "|;|", "|(|",
    ] {
        assert_prints(name, name);
    }
}

#[test]
fn names_that_get_bars() {
    for (name, printed) in [
        ("let", "|let|"),
        ("red 40", "|red 40|"),
        ("40", "|40|"),
        ("1.5", "|1.5|"),
        ("#x1", "|#x1|"),
        (":key", "|:key|"),
        ("a:b", "|a:b|"),
        (" ", "| |"),
        ("a ", "|a |"),
        ("(a)", "|(a)|"),
        ("a;b", "|a;b|"),
        ("say \"a\"", "|say \"a\"|"),
        ("a'", "|a'|"),
        ("0", "|0|"),
    ] {
        assert_prints(name, printed);
        assert!(!is_simple(name.as_bytes()) && !is_quoted(name.as_bytes()));
    }
}

#[test]
fn names_that_cannot_go_to_a_solver() {
    for name in [
        "", "|", "|||", "||||", "|a", "a|", "a|b", "|a|b|", "||a||", "|a||", "\\", "\\\\", "|\\",
        "\\|", "|\\|", "|a\\|", "|\\a|", "a\\b", "|a|\\", "|a| ", " |a|", "|a||b|",
    ] {
        assert_bad(name);
    }
}

#[test]
fn outer_bars_do_not_count() {
    for (name, symbol) in [
        ("|abc|", "abc"),
        ("abc", "abc"),
        ("||", ""),
        ("| |", " "),
        ("|", "|"),
        ("|a|b|", "|a|b|"),
        ("|a\\|", "|a\\|"),
        ("", ""),
        ("|let|", "let"),
    ] {
        assert_eq!(bare(name.as_bytes()), symbol.as_bytes(), "{name}");
    }
}

#[test]
fn the_longest_names() {
    let most = 8_192;
    let simple = "a".repeat(most);
    assert_prints(&simple, &simple);
    let mut barred = "a".repeat(most - 1);
    barred.push(' ');
    assert_eq!(text(&barred).len(), most + 2);
    assert_prints(&barred, &format!("|{barred}|"));
    let quoted = format!("|{}|", " ".repeat(most - 2));
    assert_prints(&quoted, &quoted);
    for place in [1, most / 2, most - 2] {
        let mut bad = quoted.clone().into_bytes();
        bad[place] = b'\\';
        assert!(!is_name(&bad));
        bad[place] = b'|';
        assert!(!is_name(&bad));
    }
}
