//! Which lines of a script are commands: lines made by hand, every byte at
//! every place of some, and every short row of the bytes that count.

use crate::audit::Audits;
use crate::audit_call::{AuditCall, Outcome};
use crate::tally::Met;
use leskofar_reference::audit::Verdict;
use leskofar_reference::audit_samples::PUSH;
use leskofar_reference::maker::Maker;
use leskofar_reference::refusal::{CHECKS_DIFFER, FOREIGN_LINE};
use leskofar_reference::sample_lines::{CONTEXTS, FOREIGN};

/// The bytes that count, and two that do not.
const COUNTING: [u8; 7] = *b"()|;\"a ";
/// How lines begin, and the most of those bytes that stand in a row behind.
const ROWS: [(&[u8], usize); 3] = [
    (b"(assert ", 6),
    (b"(declare-fun ", 5),
    (b"(declare-sort ", 5),
];

/// A script of lines, without questions, on the empty book.
fn compare(script: &[u8], met: &mut Met<Outcome>) -> Result<(), String> {
    let book = Maker::default().book();
    let call = AuditCall {
        book: &book,
        questions: &[],
        script,
    };
    call.compare_plainly(met).map(|_| ())
}

/// A line alone, and before and behind others, where the answer is known.
fn expect(line: &str, answer: Result<Verdict, u32>, met: &mut Met<Outcome>) -> Result<(), String> {
    let book = Maker::default().book();
    for [before, behind] in [["", ""], [PUSH, ""], ["", "(get-model)\n"]] {
        let script = format!("{before}{line}\n{behind}");
        let call = AuditCall {
            book: &book,
            questions: &[],
            script: script.as_bytes(),
        };
        call.expect(answer, met)?;
    }
    Ok(())
}

/// Every byte at every place of a line, behind a push, so that a pop is good.
fn each_byte_changed(line: &[u8], met: &mut Met<Outcome>) -> Result<(), String> {
    for at in 0..line.len() {
        for byte in 0..=u8::MAX {
            let mut changed = line.to_vec();
            changed[at] = byte;
            compare(&[PUSH.as_bytes(), &changed, b"\n"].concat(), met)?;
        }
    }
    Ok(())
}

/// A line begun, and whole but without an end, alone and behind a push.
fn each_length(line: &[u8], met: &mut Met<Outcome>) -> Result<(), String> {
    for length in 0..=line.len() {
        for before in ["", PUSH] {
            let begun = [before.as_bytes(), &line[..length]].concat();
            compare(&begun, met)?;
            compare(&[&begun[..], b"\n"].concat(), met)?;
        }
    }
    Ok(())
}

/// A row of counting bytes, by a number.
fn row(length: usize, number: usize) -> Vec<u8> {
    let mut rest = number;
    let bytes = (0..length).map(|_| {
        let byte = COUNTING[rest % COUNTING.len()];
        rest /= COUNTING.len();
        byte
    });
    bytes.collect()
}

/// The commands' starts with every row behind, which ends the line.
fn each_row(met: &mut Met<Outcome>) -> Result<(), String> {
    for (start, most) in ROWS {
        for length in 0..=most {
            for number in 0..COUNTING.len().pow(length as u32) {
                compare(&[start, &row(length, number), b"\n"].concat(), met)?;
            }
        }
    }
    Ok(())
}

/// How a script without questions ends.
const WITHOUT_QUESTIONS: [Outcome; 3] = [
    Outcome::Accepted,
    Outcome::Refused(FOREIGN_LINE),
    Outcome::Refused(CHECKS_DIFFER),
];

fn made_lines(met: &mut Met<Outcome>) -> Result<String, String> {
    for line in ["(push 1)", "(get-model)"].into_iter().chain(CONTEXTS) {
        expect(line, Ok(Verdict::Agrees), met)?;
    }
    for line in FOREIGN {
        expect(line, Err(FOREIGN_LINE), met)?;
        // Whatever stands before it, and without an end.
        compare(format!("(check-sat)\n{line}").as_bytes(), met)?;
    }
    expect("(check-sat)", Err(CHECKS_DIFFER), met)?;
    expect("(push 1)\n(pop 1)", Ok(Verdict::Agrees), met)?;
    for text in ["(pop 1)\n", "(push 1)\n(pop 1)\n(pop 1)\n(push 1)\n"] {
        compare(text.as_bytes(), met)?;
    }
    met.only(&WITHOUT_QUESTIONS)
}

fn every_byte(met: &mut Met<Outcome>) -> Result<String, String> {
    for line in [
        &b"(push 1)"[..],
        b"(pop 1)",
        b"(check-sat)",
        b"(get-model)",
        b"(assert (f |a| b))",
        b"(declare-fun f (Int) Int)",
        b"(declare-sort T 0)",
    ] {
        each_byte_changed(line, met)?;
        each_length(line, met)?;
    }
    met.only(&WITHOUT_QUESTIONS)
}

pub fn run(audits: &mut Audits) {
    audits.group("audit, lines that are commands and others", made_lines);
    audits.group("audit, every byte at every place of a line", every_byte);
    audits.group("audit, every row of bytes that count", |met| {
        each_row(met)?;
        met.only(&[Outcome::Accepted, Outcome::Refused(FOREIGN_LINE)])
    });
}
