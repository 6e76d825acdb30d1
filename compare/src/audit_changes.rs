//! Changes to the levels that a check-sat is to see, to questions, and to the
//! bytes of a script.

use crate::audit_foreign::sorted;
use leskofar_reference::audit::QUESTION_SIZE;
use leskofar_reference::audit_samples::{bytes, Question};
use leskofar_reference::book::NUMBER_SIZE;
use leskofar_reference::commands::{CMD_CHECK_SAT, CMD_POP, CMD_PUSH, LINE_END};
use leskofar_reference::maker::Maker;
use leskofar_reference::random::{Random, AT_TIMES, OFTEN};
use leskofar_reference::stack::{expected_levels, Level};

type Levels = Vec<Level>;
/// Leaves the levels as they are where there is nothing to change.
type LevelChange = fn(&mut Random, &mut Levels);

pub const LEVEL_CHANGES: [(&str, LevelChange); 12] = [
    ("a line dropped", |random, levels| {
        take(random, levels);
    }),
    ("a line doubled", |random, levels| {
        if let Some((at, line)) = any(random, levels) {
            levels[at].push(line);
        }
    }),
    ("a line changed by a byte", change_byte),
    ("a line moved a level up", |random, levels| {
        if let Some((at, line)) = take(random, levels) {
            levels[at - 1].push(line);
        }
    }),
    ("a line moved a level down", |random, levels| {
        if let Some((at, line)) = take(random, levels) {
            let below = (at + 1).min(levels.len() - 1);
            levels[below].push(line);
        }
    }),
    ("a line put at the first level", |random, levels| {
        if let Some((_, line)) = any(random, levels) {
            levels[0].push(line);
        }
    }),
    ("a line moved to the first level", |random, levels| {
        if let Some((_, line)) = take(random, levels) {
            levels[0].push(line);
        }
    }),
    ("two levels thrown together", |random, levels| {
        let at = 1 + random.below(levels.len() - 2);
        let below = levels.remove(at + 1);
        levels[at].extend(below);
    }),
    ("two levels swapped", |random, levels| {
        let at = 1 + random.below(levels.len() - 2);
        levels.swap(at, at + 1);
    }),
    ("an empty level between", |random, levels| {
        let at = 1 + random.below(levels.len());
        levels.insert(at, vec![]);
    }),
    ("a level left out", |random, levels| {
        let at = 1 + random.below(levels.len() - 1);
        levels.remove(at);
    }),
    ("a line in place of another", |random, levels| {
        if let Some((at, line)) = any(random, levels) {
            let other = random.below(levels[at].len());
            levels[at][other] = line;
        }
    }),
];

/// A line and its level. The first level of a question is empty.
fn any(random: &mut Random, levels: &Levels) -> Option<(usize, Vec<u8>)> {
    let full: Vec<usize> = (1..levels.len())
        .filter(|at| !levels[*at].is_empty())
        .collect();
    let at = *full.get(random.below(full.len().max(1)))?;
    let line = random.below(levels[at].len());
    Some((at, levels[at][line].clone()))
}

/// The same, taken out.
fn take(random: &mut Random, levels: &mut Levels) -> Option<(usize, Vec<u8>)> {
    let (at, line) = any(random, levels)?;
    let place = levels[at].iter().position(|other| *other == line)?;
    levels[at].remove(place);
    Some((at, line))
}

/// A line one of whose bytes, start and end aside, is another.
fn change_byte(random: &mut Random, levels: &mut Levels) {
    let Some((at, mut line)) = take(random, levels) else {
        return;
    };
    let start = line.iter().position(|byte| *byte == b' ').unwrap_or(0) + 1;
    let end = line.len() - 1;
    if start < end {
        let place = start + random.below(end - start);
        line[place] = other_byte(random, line[place]);
    }
    levels[at].push(line);
}

/// As often a letter or a digit as a sign of another sort.
fn other_byte(random: &mut Random, byte: u8) -> u8 {
    let with = if random.one_in(OFTEN) {
        b"abxyTf019"
    } else {
        b"|;\"()\\ \t\n"
    };
    let new = random.pick(with);
    if new == byte {
        byte ^ 1
    } else {
        new
    }
}

/// Whether both are the same whatever the order within levels.
pub fn same_levels(a: &Levels, b: &Levels) -> bool {
    a.len() == b.len() && a.iter().zip(b).all(|(a, b)| sorted(a) == sorted(b))
}

const SWAPPED: &str = "two questions swapped";
const ONE_MORE: &str = "a question more";
const ONE_LESS: &str = "a question less";
const CUT: &str = "a question cut";
const NODE_OUTSIDE: &str = "a node outside";
const GOAL_OUTSIDE: &str = "a goal outside";
const OTHER: &str = "another question";
const LACKING: &str = "a question that lacks an axiom";
pub const QUESTION_CHANGES: [&str; 8] = [
    SWAPPED,
    ONE_MORE,
    ONE_LESS,
    CUT,
    NODE_OUTSIDE,
    GOAL_OUTSIDE,
    OTHER,
    LACKING,
];
/// How often a question that lacks an axiom is looked for.
const DRAWS: usize = 16;

/// Questions of a book as bytes, of which there are some, changed by one of the
/// changes.
pub fn changed_questions(
    random: &mut Random,
    change: &str,
    questions: &[u8],
    m: &Maker,
) -> Vec<u8> {
    let mut changed = questions.to_vec();
    let many = questions.len() / QUESTION_SIZE;
    let at = random.below(many) * QUESTION_SIZE;
    let other = random.below(many) * QUESTION_SIZE;
    let [nodes, terms] = [m.contexts.len(), m.terms.len()];
    let any = bytes(&[any_question(random, m)]);
    match change {
        SWAPPED => {
            for byte in 0..QUESTION_SIZE {
                changed.swap(at + byte, other + byte);
            }
        }
        ONE_MORE => {
            changed.splice(at..at, any);
        }
        ONE_LESS => {
            changed.drain(at..at + QUESTION_SIZE);
        }
        CUT => changed.truncate(questions.len() - 1 - random.below(QUESTION_SIZE - 1)),
        NODE_OUTSIDE => put(random, &mut changed, at, nodes as u32 + 1),
        GOAL_OUTSIDE => put(random, &mut changed, at + NUMBER_SIZE, terms as u32),
        LACKING => {
            let lacking = bytes(&[lacking_question(random, m)]);
            changed.splice(at..at + QUESTION_SIZE, lacking);
        }
        _ => {
            changed.splice(at..at + QUESTION_SIZE, any);
        }
    }
    changed
}

fn any_question(random: &mut Random, m: &Maker) -> Question {
    let node = random.up_to(m.contexts.len());
    [node as u32, random.below(m.terms.len()) as u32]
}

/// One that lacks an axiom, on its path or for its goal, if one is found.
fn lacking_question(random: &mut Random, m: &Maker) -> Question {
    let book = m.book();
    let mut question = any_question(random, m);
    for _ in 0..DRAWS {
        let [node, goal] = question;
        if expected_levels(&book, node, Some(goal)).is_none() {
            break;
        }
        question = any_question(random, m);
    }
    question
}

/// The first number that is outside, or a later one.
fn put(random: &mut Random, questions: &mut [u8], at: usize, first: u32) {
    let number = random.pick(&[first, first + 1, 1 << 16, 1 << 31, u32::MAX]);
    questions[at..at + NUMBER_SIZE].copy_from_slice(&number.to_le_bytes());
}

/// Ways to damage a script's lines.
const LINE_DAMAGES: usize = 4;
/// The most bytes that are damaged at once.
const BYTES: usize = 2;

/// A script with one of its lines dropped, doubled or moved, or with a few bytes
/// dropped, changed or put in.
pub fn damaged_script(random: &mut Random, script: &[u8]) -> Vec<u8> {
    let mut lines: Vec<Vec<u8>> = script
        .split_inclusive(|byte| *byte == LINE_END)
        .map(<[u8]>::to_vec)
        .collect();
    let at = random.below(lines.len().max(1));
    let other = random.below(lines.len().max(1));
    match random.below(LINE_DAMAGES) {
        _ if lines.is_empty() || random.one_in(OFTEN) => {
            let mut bytes = script.to_vec();
            damage_bytes(random, &mut bytes);
            return bytes;
        }
        0 => {
            lines.remove(at);
        }
        1 => lines.insert(other, lines[at].clone()),
        2 => lines.swap(at, other),
        _ => {
            let line = random.pick(&[CMD_PUSH, CMD_POP, CMD_CHECK_SAT]);
            lines.insert(at, [line, &[LINE_END]].concat());
        }
    }
    lines.concat()
}

fn damage_bytes(random: &mut Random, bytes: &mut Vec<u8>) {
    for _ in 0..=random.below(BYTES) {
        let at = random.below(bytes.len().max(1));
        if bytes.is_empty() || random.one_in(AT_TIMES) {
            bytes.insert(at, other_byte(random, 0));
        } else if random.one_in(AT_TIMES) {
            bytes.remove(at);
        } else if random.one_in(AT_TIMES) {
            bytes[at] = random.number() as u8;
        } else {
            bytes[at] = other_byte(random, bytes[at]);
        }
    }
}
