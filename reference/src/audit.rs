//! The audit of a script that another writer made: whether its k-th check-sat,
//! for every k, sees the levels that this writer would have there for the k-th
//! question, each a multiset of lines.

use crate::book::{number_at, NUMBER_SIZE};
use crate::book_test::{open, FIRST_LETTER, LAST_LETTER};
use crate::commands::{CMD_CHECK_SAT, CMD_GET_MODEL, CMD_POP, CMD_PUSH};
use crate::lower::TAG;
use crate::program::{Program, RExpr};
use crate::refusal::{
    refuse_if, CHECKS_DIFFER, CONTENTS, COUNT, FOREIGN_LINE, MISSING_AXIOM, NOT_IN_BOOK,
    SCRATCH_SHORT, TAG_IN_BOOK,
};
use crate::stack::{levels_of, lines, Level};
use std::collections::HashMap;

/// The longest script that is taken.
pub const SCRIPT_MOST: usize = 65_536;
/// Bytes of a question: its node and its goal.
pub const QUESTION_SIZE: usize = 2 * NUMBER_SIZE;
/// How a line that joins a level begins.
const STARTS: [&[u8]; 3] = [b"(assert ", b"(declare-fun ", b"(declare-sort "];

/// What comes of an audit that is not refused.
#[derive(Clone, Copy, Debug, PartialEq, Eq)]
pub enum Verdict {
    Agrees,
    /// The first check-sat that differs, counted from 1.
    DiffersAt(usize),
}

/// The live lines of a level, each with how often it is there.
type Counts<'l> = HashMap<&'l [u8], usize>;

#[derive(Clone, Copy)]
struct Question {
    node: u32,
    goal: u32,
}

/// Audits a script: refusals 1 to 6, 28, 7, 9, 25, 26 and 27, 3 also for a
/// script that is too long. The questions are node and goal in turn; each refusal is
/// decided for all of them before the next.
pub fn audit(
    book: &[u8],
    scratch: &mut [u8],
    questions: &[u8],
    script: &[u8],
) -> Result<Verdict, u32> {
    let program = match open(book, scratch) {
        Err(first @ (SCRATCH_SHORT | CONTENTS)) => return Err(first),
        // The script's 3 stands where a count's does.
        _ if script.len() > SCRIPT_MOST => return Err(COUNT),
        opened => opened?,
    };
    let questions = questions_in(&program, questions).ok_or(NOT_IN_BOOK)?;
    let lacks_an_axiom = |asked: &Question| own_levels(&program, *asked).is_none();
    refuse_if(questions.iter().any(lacks_an_axiom), MISSING_AXIOM)?;
    refuse_if(program.terms.iter().any(is_tag), TAG_IN_BOOK)?;
    let commands = lines(script).map_err(|_| FOREIGN_LINE)?;
    refuse_if(!commands.iter().all(|line| is_command(line)), FOREIGN_LINE)?;
    refuse_if(pops_the_first(&commands), FOREIGN_LINE)?;
    let checks = commands.iter().filter(|line| *line == CMD_CHECK_SAT);
    refuse_if(checks.count() != questions.len(), CHECKS_DIFFER)?;
    Ok(verdict(&program, &questions, &commands))
}

/// None where one is not in the book, or the last one is cut short.
fn questions_in(program: &Program, bytes: &[u8]) -> Option<Vec<Question>> {
    let question = |pair: &[u8]| {
        let is_whole = pair.len() == QUESTION_SIZE;
        let asked = is_whole.then(|| Question {
            node: number_at(pair, 0),
            goal: number_at(pair, NUMBER_SIZE),
        })?;
        (program.has_node(asked.node) && program.has_term(asked.goal)).then_some(asked)
    };
    bytes.chunks(QUESTION_SIZE).map(question).collect()
}

/// What is live at this writer's check-sat for a question; None where an ask
/// of a fresh session is refused 9.
fn own_levels(program: &Program, asked: Question) -> Option<Vec<Level>> {
    levels_of(program, asked.node as usize, Some(asked.goal as usize))
}

fn is_tag(term: &RExpr) -> bool {
    matches!(term, RExpr::CustomLiteral { s, .. } if *s == TAG)
}

/// A line that this writer could have sent, by its looks.
pub fn is_command(line: &[u8]) -> bool {
    let plain = [CMD_PUSH, CMD_POP, CMD_CHECK_SAT, CMD_GET_MODEL];
    plain.contains(&line) || joins(line)
}

/// A line that joins a level: its first parenthesis is closed by its last
/// byte and by none before. What stands between bars does not count.
fn joins(line: &[u8]) -> bool {
    let is_printing = |byte: &u8| (FIRST_LETTER..=LAST_LETTER).contains(byte);
    let starts = STARTS.iter().any(|start| line.starts_with(start));
    let ends = line.ends_with(b")");
    starts && ends && line.iter().all(is_printing) && closes_at_its_end(line)
}

/// Every second piece between bars is outside; an even number of pieces means
/// that a bar stays open.
fn closes_at_its_end(line: &[u8]) -> bool {
    let pieces: Vec<&[u8]> = line.split(|byte| *byte == b'|').collect();
    let outside: Vec<u8> = pieces
        .iter()
        .copied()
        .step_by(2)
        .flatten()
        .copied()
        .collect();
    if pieces.len().is_multiple_of(2) || outside.iter().any(|byte| b";\"".contains(byte)) {
        return false;
    }
    let mut depth: i64 = 0;
    let depths: Vec<i64> = outside
        .iter()
        .map(|byte| {
            depth += i64::from(*byte == b'(') - i64::from(*byte == b')');
            depth
        })
        .collect();
    let first_closed = depths.iter().position(|depth| *depth == 0);
    first_closed == Some(depths.len() - 1)
}

/// Whether a pop would drop the first level.
fn pops_the_first(commands: &[Vec<u8>]) -> bool {
    let mut pushed: usize = 0;
    for line in commands {
        match line.as_slice() {
            CMD_PUSH => pushed += 1,
            CMD_POP if pushed == 0 => return true,
            CMD_POP => pushed -= 1,
            _ => {}
        }
    }
    false
}

/// Of commands with as many check-sats as there are questions.
fn verdict(program: &Program, questions: &[Question], commands: &[Vec<u8>]) -> Verdict {
    let mut live = vec![Counts::new()];
    let mut checked = 0;
    for line in commands {
        match line.as_slice() {
            CMD_PUSH => live.push(Counts::new()),
            CMD_POP => live.truncate(live.len() - 1),
            CMD_GET_MODEL => {}
            CMD_CHECK_SAT => {
                let own = own_levels(program, questions[checked]).expect("9 is decided before");
                checked += 1;
                if live != own.iter().map(counted).collect::<Vec<Counts>>() {
                    return Verdict::DiffersAt(checked);
                }
            }
            joining => {
                let last = live.last_mut().expect("the first is never popped");
                *last.entry(joining).or_default() += 1;
            }
        }
    }
    Verdict::Agrees
}

fn counted(level: &Level) -> Counts<'_> {
    let mut counts = Counts::new();
    for line in level {
        *counts.entry(line).or_default() += 1;
    }
    counts
}
