//! Audits at the borders: no lines, as many lines as a script holds, the deepest
//! node, levels of many lines and missing axioms.

use crate::audit::Audits;
use crate::audit_call::{AuditCall, Outcome};
use crate::audit_foreign::{shuffle, ForeignWriter, Manners};
use crate::audit_wide::{alike, equal_level, wide, Wide};
use crate::made_books::chain;
use crate::tally::Met;
use leskofar_reference::audit::{Verdict, QUESTION_SIZE, SCRIPT_MOST};
use leskofar_reference::audit_samples::{bytes, lacking, Question, CHECK_SAT, POP, PUSH};
use leskofar_reference::book_test::MOST_DEPTH;
use leskofar_reference::maker::Maker;
use leskofar_reference::random::Random;
use leskofar_reference::refusal::{CHECKS_DIFFER, COUNT, FOREIGN_LINE, MISSING_AXIOM, NOT_IN_BOOK};
use leskofar_reference::stack::{expected_levels, Level};

const SEED: u64 = 0x6564_6765;
/// What is sent at the root for the goal `true`, but for the check-sat.
const ASK_TRUE: &str = "(push 1)\n(push 1)\n(assert (not true))\n";
/// Places of lines in a level of many, and how far another is.
const PLACES: [usize; 3] = [0, 1, 500];
const FURTHER: usize = 7;
/// Questions, more than any script has check-sats.
const MANY_QUESTIONS: usize = 50_000;

type Answer = Result<Verdict, u32>;

const AGREES: Answer = Ok(Verdict::Agrees);

fn differs_at(check: usize) -> Answer {
    Ok(Verdict::DiffersAt(check))
}

/// The terms `true` and `false`, and nothing else.
fn two_goals() -> Vec<u8> {
    let mut m = Maker::default();
    m.boolean(true);
    m.boolean(false);
    m.book()
}

/// A script on that book.
fn expect_plain(
    questions: &[Question],
    script: &str,
    answer: Answer,
    met: &mut Met<Outcome>,
) -> Result<(), String> {
    expect(&two_goals(), questions, script.as_bytes(), answer, met)
}

fn expect(
    book: &[u8],
    questions: &[Question],
    script: &[u8],
    answer: Answer,
    met: &mut Met<Outcome>,
) -> Result<(), String> {
    let questions = &bytes(questions);
    AuditCall {
        book,
        questions,
        script,
    }
    .expect(answer, met)
}

fn no_lines(met: &mut Met<Outcome>) -> Result<String, String> {
    let asked = [0, 0];
    let own = format!("{ASK_TRUE}{CHECK_SAT}");
    expect_plain(&[], "", AGREES, met)?;
    expect_plain(&[asked], "", Err(CHECKS_DIFFER), met)?;
    expect_plain(&[[1, 0]], "", Err(NOT_IN_BOOK), met)?;
    expect_plain(&[], PUSH, AGREES, met)?;
    expect_plain(&[], CHECK_SAT, Err(CHECKS_DIFFER), met)?;
    expect_plain(&[asked], CHECK_SAT, differs_at(1), met)?;
    expect_plain(&[asked], &own, AGREES, met)?;
    expect_plain(&[[0, 1]], &own, differs_at(1), met)?;
    expect_plain(&[asked], &own[..own.len() - 1], Err(FOREIGN_LINE), met)?;
    let second = format!("{own}{POP}{POP}(assert true)\n{own}");
    expect_plain(&[asked; 2], &second, differs_at(2), met)?;
    let twice = format!("{own}{CHECK_SAT}");
    expect_plain(&[asked; 2], &twice, AGREES, met)?;
    for cut in 1..QUESTION_SIZE {
        let call = AuditCall {
            book: &two_goals(),
            questions: &bytes(&[asked; 2])[..2 * QUESTION_SIZE - cut],
            script: twice.as_bytes(),
        };
        call.expect(Err(NOT_IN_BOOK), met)?;
    }
    let empty = Maker::default().book();
    expect(&empty, &[], b"", AGREES, met)?;
    expect(&empty, &[asked], b"", Err(NOT_IN_BOOK), met)?;
    Ok(met.said())
}

/// Pushes, pops and check-sats that just fill a script.
fn most_lines(met: &mut Met<Outcome>) -> Result<String, String> {
    let pushes = SCRIPT_MOST / PUSH.len();
    expect_plain(&[], &PUSH.repeat(pushes), AGREES, met)?;
    expect_plain(&[[0, 0]], &PUSH.repeat(pushes), Err(CHECKS_DIFFER), met)?;
    expect_plain(&[], &PUSH.repeat(pushes + 1), Err(COUNT), met)?;
    let checked = format!("{}{CHECK_SAT}", PUSH.repeat(pushes - 1));
    expect_plain(&[[0, 0]], &checked, differs_at(1), met)?;
    let pairs = SCRIPT_MOST / (PUSH.len() + POP.len());
    for text in [
        PUSH.repeat(pairs) + &POP.repeat(pairs),
        [PUSH, POP].concat().repeat(pairs),
    ] {
        expect_plain(&[], &text, AGREES, met)?;
        // A pop more, and a push less for it.
        let popped = format!("{}{POP}", &text[PUSH.len()..]);
        expect_plain(&[], &popped, Err(FOREIGN_LINE), met)?;
    }
    let early = format!("{POP}{}", PUSH.repeat(pushes - 1));
    expect_plain(&[], &early, Err(FOREIGN_LINE), met)?;
    let checks = SCRIPT_MOST / CHECK_SAT.len();
    let text = CHECK_SAT.repeat(checks);
    expect_plain(&vec![[0, 0]; checks], &text, differs_at(1), met)?;
    for other in [checks - 1, checks + 1, MANY_QUESTIONS] {
        expect_plain(&vec![[0, 0]; other], &text, Err(CHECKS_DIFFER), met)?;
    }
    let checks = (SCRIPT_MOST - ASK_TRUE.len()) / CHECK_SAT.len();
    let text = format!("{ASK_TRUE}{}", CHECK_SAT.repeat(checks));
    let mut questions = vec![[0, 0]; checks];
    expect_plain(&questions, &text, AGREES, met)?;
    questions[checks - 1] = [0, 1];
    expect_plain(&questions, &text, differs_at(checks), met)?;
    Ok(met.said())
}

/// All levels of the deepest node, and one less and one more.
fn deepest(met: &mut Met<Outcome>) -> Result<String, String> {
    let mut m = chain(MOST_DEPTH);
    let goal = m.boolean(false);
    let book = m.book();
    let deepest = MOST_DEPTH as u32;
    let levels = |node| expected_levels(&book, node, Some(goal)).ok_or("no levels");
    let mut random = Random::new(SEED);
    for [asked, sent] in [
        [deepest, deepest],
        [deepest - 1, deepest],
        [deepest, deepest - 1],
        [deepest - 1, deepest - 1],
    ] {
        let stacks = [levels(1)?, levels(sent)?];
        let script = ForeignWriter::script(&mut random, Manners::default(), &stacks);
        let answer = if asked == sent { AGREES } else { differs_at(2) };
        expect(&book, &[[1, goal], [asked, goal]], &script, answer, met)?;
        expect(&book, &[[1, goal]; 2], &script, differs_at(2), met)?;
    }
    Ok(met.said())
}

/// A stack whose one level of many lines is changed.
fn expect_level(
    wide: &Wide,
    answer: Answer,
    met: &mut Met<Outcome>,
    change: impl FnOnce(&mut Level),
) -> Result<(), String> {
    let book = wide.maker.book();
    let levels = expected_levels(&book, 0, Some(wide.goal));
    let mut levels = levels.ok_or("no levels")?;
    change(&mut levels[1]);
    let mut random = Random::new(SEED);
    let script = ForeignWriter::script(&mut random, Manners::default(), &[levels]);
    expect(&book, &[[0, wide.goal]], &script, answer, met)
}

fn many_lines(met: &mut Met<Outcome>) -> Result<String, String> {
    let wide = wide();
    let mut random = Random::new(SEED);
    expect_level(&wide, AGREES, met, |_| {})?;
    expect_level(&wide, AGREES, met, |level| level.reverse())?;
    expect_level(&wide, AGREES, met, |level| shuffle(&mut random, level))?;
    expect_level(&wide, AGREES, met, |level| level.rotate_left(1))?;
    for at in PLACES {
        expect_level(&wide, differs_at(1), met, |level| {
            level.reverse();
            level[at] = level[at + 1].clone();
        })?;
        expect_level(&wide, differs_at(1), met, |level| {
            level.swap_remove(at);
        })?;
        expect_level(&wide, differs_at(1), met, |level| {
            level.insert(at, level[at + FURTHER].clone());
        })?;
    }
    Ok(met.said())
}

/// Lines of a level that are equal: as often as ours, by numbers of two sorts.
fn equal_lines(met: &mut Met<Outcome>) -> Result<String, String> {
    expect_level(&alike([1, 1]), differs_at(1), met, |level| {
        *level = equal_level();
    })?;
    for [first, second] in [[2, 1], [1, 2], [3, 3], [200, 56]] {
        let wide = alike([first, second]);
        expect_level(&wide, AGREES, met, |level| level.reverse())?;
        for change in [1, 2] {
            // One sort by so much more, and the other by as much less.
            expect_level(&wide, differs_at(1), met, |level| {
                let [one, other] = [level[0].clone(), level[first].clone()];
                *level = vec![one; first + change];
                level.extend(vec![other; second.saturating_sub(change)]);
            })?;
        }
        expect_level(&wide, differs_at(1), met, |level| level.dedup())?;
    }
    Ok(met.said())
}

/// An axiom that is missing on the path, below it and for the goal alone.
fn missing_axioms(met: &mut Met<Outcome>) -> Result<String, String> {
    let mut m = lacking();
    let f = m.functions.len() as u32 - 1;
    let [goal, lacking] = [m.boolean(true), m.apply(f, &[])];
    let book = m.book();
    let [good, outside] = [[4, goal], [5, goal]];
    for fails in [[2, goal], [3, goal], [0, lacking], [1, lacking], [0, 1]] {
        for questions in [&[fails][..], &[good, fails], &[fails, good, good]] {
            expect(&book, questions, b"foreign", Err(MISSING_AXIOM), met)?;
            let more = [questions, &[outside]].concat();
            expect(&book, &more, b"", Err(NOT_IN_BOOK), met)?;
        }
    }
    expect(&book, &[good], b"", Err(CHECKS_DIFFER), met)?;
    Ok(met.said())
}

pub fn run(audits: &mut Audits) {
    audits.group("audit, no lines and few", no_lines);
    audits.group("audit, as many lines as a script holds", most_lines);
    audits.group("audit, the deepest node", deepest);
    audits.group("audit, a level of many lines", many_lines);
    audits.group("audit, a level of equal lines", equal_lines);
    audits.group("audit, missing axioms", missing_axioms);
}
