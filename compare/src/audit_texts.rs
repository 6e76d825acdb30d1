//! Own texts at the border of a script's length, and longer than any script.

use crate::audit::Audits;
use crate::audit_call::{AuditCall, Outcome, VERDICTS};
use crate::tally::Met;
use leskofar_reference::audit::{Verdict, SCRIPT_MOST};
use leskofar_reference::audit_samples::{bytes, Long, Question, CHECK_SAT, POP};
use leskofar_reference::book_test::SCRATCH_SIZE;
use leskofar_reference::commands::LINE_END;
use leskofar_reference::refusal::COUNT;
use leskofar_reference::{ask, fresh_image};

/// More than any text here has.
const ROOM: usize = 1 << 23;
/// Lengths so much shorter and longer than the longest script's.
const BESIDE: usize = 3;
/// How far from the begin and the end of a long text a name's letters stand, and
/// where they do behind a short question.
const FROM_BEGIN: usize = 30;
const FROM_END: usize = 60;
const AMID: usize = 1_000;
/// What a fresh session sends for a question.
pub fn own_text(book: &[u8], node: u32, goal: u32) -> Result<Vec<u8>, String> {
    let mut text = vec![0; ROOM];
    let [mut scratch, mut image] = [vec![0; SCRATCH_SIZE], fresh_image().to_vec()];
    let length = ask(book, &mut scratch, &mut image, node, goal, &mut text);
    text.truncate(length.map_err(|refusal| format!("refused {refusal}"))?);
    Ok(text)
}

/// The own text for the goal of a long book.
fn text_of(long: &Long, node: u32) -> Result<Vec<u8>, String> {
    own_text(&long.maker.book(), node, long.goal)
}

/// Questions at these nodes of it.
fn expect(
    long: &Long,
    nodes: &[u32],
    script: &[u8],
    answer: Result<Verdict, u32>,
    met: &mut Met<Outcome>,
) -> Result<(), String> {
    let questions: Vec<Question> = nodes.iter().map(|node| [*node, long.goal]).collect();
    let call = AuditCall {
        book: &long.maker.book(),
        questions: &bytes(&questions),
        script,
    };
    call.expect(answer, met)
}

/// One question whose text just fills a script, or nearly, or not.
fn whole_scripts(met: &mut Met<Outcome>) -> Result<(), String> {
    for length in SCRIPT_MOST - BESIDE..=SCRIPT_MOST + BESIDE {
        let long = Long::new(length);
        let text = text_of(&long, long.node)?;
        let fits = length <= SCRIPT_MOST;
        let answer = if fits {
            Ok(Verdict::Agrees)
        } else {
            Err(COUNT)
        };
        expect(&long, &[long.node], &text, answer, met)?;
        // A letter less, at the begin, at the end and in between.
        for at in [FROM_BEGIN, length / 2, length - FROM_END] {
            let mut less = text.clone();
            less.remove(at);
            let answer = if length <= SCRIPT_MOST + 1 {
                Ok(Verdict::DiffersAt(1))
            } else {
                Err(COUNT)
            };
            expect(&long, &[long.node], &less, answer, met)?;
        }
    }
    Ok(())
}

/// The same behind a short question, popped to the root between.
fn behind_a_question(met: &mut Met<Outcome>) -> Result<(), String> {
    for longer in 0..=BESIDE {
        let short = text_of(&Long::new(SCRIPT_MOST), 0)?;
        let before = [&short, POP.as_bytes(), POP.as_bytes()].concat();
        let long = Long::new(SCRIPT_MOST - before.len() + longer);
        let text = [before, text_of(&long, long.node)?].concat();
        let answer = if longer == 0 {
            Ok(Verdict::Agrees)
        } else {
            Err(COUNT)
        };
        expect(&long, &[0, long.node], &text, answer, met)?;
        // As long as it may be: some letters less.
        let mut less = text.clone();
        less.drain(AMID..AMID + longer.max(1));
        expect(
            &long,
            &[0, long.node],
            &less,
            Ok(Verdict::DiffersAt(2)),
            met,
        )?;
    }
    Ok(())
}

/// A text that no script has, asked first and later. However many of its lines
/// a script has, it differs: also as many as a shorter buffer would hold.
fn longer_than_any(met: &mut Met<Outcome>) -> Result<(), String> {
    let long = Long::longest();
    let whole = text_of(&long, long.node)?;
    let short = text_of(&long, 0)?;
    let check_sat = CHECK_SAT.as_bytes();
    let ends = (0..SCRIPT_MOST - check_sat.len()).filter(|at| whole[*at] == LINE_END);
    for end in ends {
        let script = [&whole[..=end], check_sat].concat();
        if script.len() <= SCRIPT_MOST {
            expect(&long, &[long.node], &script, Ok(Verdict::DiffersAt(1)), met)?;
        }
    }
    for script in [&short[..], check_sat] {
        expect(&long, &[long.node], script, Ok(Verdict::DiffersAt(1)), met)?;
    }
    let twice = [&short[..], check_sat].concat();
    expect(
        &long,
        &[0, long.node],
        &twice,
        Ok(Verdict::DiffersAt(2)),
        met,
    )?;
    expect(&long, &[0, 0], &twice, Ok(Verdict::Agrees), met)
}

pub fn run(audits: &mut Audits) {
    audits.group("audit, own texts at the border of a length", |met| {
        whole_scripts(met)?;
        behind_a_question(met)?;
        longer_than_any(met)?;
        met.all_of(&VERDICTS)?;
        met.all_of(&[Outcome::LongScript])
    });
}
