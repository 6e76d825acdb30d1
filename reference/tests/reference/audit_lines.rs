//! Which lines of a script are commands.

use crate::audit::audited;
use leskofar_reference::audit::{is_command, Verdict};
use leskofar_reference::maker::Maker;
use leskofar_reference::random::Random;
use leskofar_reference::refusal::{CHECKS_DIFFER, FOREIGN_LINE};
use leskofar_reference::sample_lines::{CONTEXTS, FOREIGN};

const SEED: u64 = 18;
/// Random lines, and the most signs of one.
const LINES: usize = 100_000;
const SIGNS: usize = 10;
/// What lines are made of behind their start.
const MADE_OF: [&str; 8] = ["(", ")", "|", ";", "\"", "a", " ", ")"];

/// Commands that neither assert nor declare.
const PLAIN: [&str; 4] = ["(push 1)", "(pop 1)", "(check-sat)", "(get-model)"];

/// A line by itself, in a script without questions.
fn audited_line(line: &[u8]) -> Result<Verdict, u32> {
    let book = Maker::default().book();
    let script = [b"(push 1)\n", line, b"\n"].concat();
    audited(&book, &[], &script)
}

#[test]
fn commands_and_others() {
    for line in PLAIN.into_iter().chain(CONTEXTS) {
        assert!(is_command(line.as_bytes()), "{line}");
        let answer = audited_line(line.as_bytes());
        let expected = match line {
            "(check-sat)" => Err(CHECKS_DIFFER),
            _ => Ok(Verdict::Agrees),
        };
        assert_eq!(answer, expected, "{line}");
    }
    for line in FOREIGN {
        assert!(!is_command(line.as_bytes()), "{line}");
        assert_eq!(audited_line(line.as_bytes()), Err(FOREIGN_LINE), "{line}");
    }
}

#[test]
fn every_byte_outside_and_between_bars() {
    for byte in 0..=u8::MAX {
        let is_printing = (0x20..=0x7E).contains(&byte);
        let between = [b"(assert |", &[byte][..], b"|)"].concat();
        assert_eq!(is_command(&between), is_printing && byte != b'|', "{byte}");
        let outside = [b"(assert ", &[byte][..], b")"].concat();
        let counts = b"();\"|".contains(&byte);
        assert_eq!(is_command(&outside), is_printing && !counts, "{byte}");
    }
}

/// By the words of document 02, byte by byte.
fn plainly(line: &[u8]) -> bool {
    let mut depth = 0;
    let mut between = false;
    for (at, byte) in line.iter().enumerate() {
        match byte {
            b'|' => between = !between,
            _ if between => {}
            b';' | b'"' => return false,
            b'(' => depth += 1,
            b')' => {
                depth -= 1;
                if depth == 0 {
                    return at == line.len() - 1;
                }
            }
            _ => {}
        }
    }
    false
}

#[test]
fn random_lines() {
    let mut random = Random::new(SEED);
    let mut met = [0; 2];
    for _ in 0..LINES {
        let mut line = b"(assert ".to_vec();
        for _ in 0..random.up_to(SIGNS) {
            line.extend_from_slice(random.pick(&MADE_OF).as_bytes());
        }
        let expected = plainly(&line);
        assert_eq!(is_command(&line), expected, "{}", line.escape_ascii());
        met[usize::from(expected)] += 1;
    }
    assert!(met.iter().all(|times| *times > LINES / 100), "{met:?}");
}
