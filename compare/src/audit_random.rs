//! Audits of random scripts: own texts of lists of calls, scripts of another
//! writer, and both with something changed.

use crate::audit::Audits;
use crate::audit_books::audit_book;
use crate::audit_call::{AuditCall, Outcome, VERDICTS};
use crate::audit_changes::{
    changed_questions, damaged_script, same_levels, LEVEL_CHANGES, QUESTION_CHANGES,
};
use crate::audit_foreign::{ForeignWriter, Manners};
use crate::audit_own::{Own, OWN_SHAPES};
use crate::scratch_bytes::random_scratch;
use crate::tally::Met;
use leskofar_reference::audit::Verdict;
use leskofar_reference::audit_samples::{bytes, Question};
use leskofar_reference::damage::damaged;
use leskofar_reference::maker::Maker;
use leskofar_reference::random::{Random, AT_TIMES, OFTEN, RARELY};
use leskofar_reference::refusal::{COUNT, FOREIGN_LINE, TAG_IN_BOOK};
use leskofar_reference::stack::{expected_levels, Level};

const SEED: u64 = 0x6175_6469;
/// Random scripts of each sort.
const OWN_TEXTS: usize = 30_000;
const FOREIGN_SCRIPTS: usize = 10_000;
const CHANGED_LEVELS: usize = 15_000;
const CHANGED_QUESTIONS: usize = 10_000;
const DAMAGED: usize = 40_000;
/// Damages of one text.
const DAMAGES: usize = 8;
/// The most questions of another writer's script.
const QUESTIONS: usize = 5;
/// What a script that agrees may be refused for, all the same.
const REFUSED_ALL_THE_SAME: [u32; 3] = [COUNT, TAG_IN_BOOK, FOREIGN_LINE];

/// Own texts are accepted if they are not refused, and then for a reason that
/// lies in the book's names and literals or in their length.
fn own_group(audits: &mut Audits) {
    let texts = audits.share(OWN_TEXTS);
    audits.group("audit, own texts of random lists of calls", |met| {
        let mut shapes = Met::default();
        let mut random = Random::new(SEED);
        let mut accepted = 0;
        for _ in 0..texts {
            let own = Own::new(&mut random);
            let questions = own.question_bytes();
            let call = own.with(&questions);
            let audited = call.expect_or(Verdict::Agrees, &REFUSED_ALL_THE_SAME, met)?;
            if audited.refusal == 0 {
                accepted += 1;
                own.visit(&mut shapes);
            }
        }
        let accepted = mostly_accepted(accepted, texts)?;
        let shapes = shapes.only(&OWN_SHAPES)?;
        Ok(format!("{accepted}, met: {shapes}"))
    });
}

/// How many of so many scripts were accepted. Fails if it is not over half.
fn mostly_accepted(accepted: usize, scripts: usize) -> Result<String, String> {
    let said = format!("{accepted} of {scripts} accepted");
    if accepted > scripts / 2 {
        Ok(said)
    } else {
        Err(said)
    }
}

/// A book, questions that can be asked, and the levels of each.
struct Asked {
    maker: Maker,
    book: Vec<u8>,
    questions: Vec<Question>,
    stacks: Vec<Vec<Level>>,
}

impl Asked {
    /// Some questions at least.
    fn new(random: &mut Random) -> Asked {
        loop {
            let maker = audit_book(random);
            let mut asked = Asked {
                book: maker.book(),
                maker,
                questions: Vec::new(),
                stacks: Vec::new(),
            };
            if !asked.maker.terms.is_empty() {
                for _ in 0..=random.below(QUESTIONS) {
                    asked.add(random);
                }
            }
            if !asked.questions.is_empty() {
                return asked;
            }
        }
    }

    fn add(&mut self, random: &mut Random) {
        let goal = random.below(self.maker.terms.len()) as u32;
        let node = random.up_to(self.maker.contexts.len()) as u32;
        if let Some(levels) = expected_levels(&self.book, node, Some(goal)) {
            self.questions.push([node, goal]);
            self.stacks.push(levels);
        }
    }
}

/// What another writer makes for the same levels is accepted.
fn foreign_group(audits: &mut Audits) {
    let scripts = audits.share(FOREIGN_SCRIPTS);
    audits.group("audit, scripts of another writer", |met| {
        let mut shapes = Met::default();
        let mut random = Random::new(SEED);
        let mut accepted = 0;
        for _ in 0..scripts {
            let asked = Asked::new(&mut random);
            let manners = Manners::random(&mut random);
            let call = AuditCall {
                book: &asked.book,
                questions: &bytes(&asked.questions),
                script: &ForeignWriter::script(&mut random, manners, &asked.stacks),
            };
            let audited = call.expect_or(Verdict::Agrees, &REFUSED_ALL_THE_SAME, met)?;
            if audited.refusal == 0 {
                accepted += 1;
                for name in manners.names() {
                    shapes.add(name);
                }
            }
        }
        let accepted = mostly_accepted(accepted, scripts)?;
        let shapes = shapes.only(&Manners::NAMES)?;
        Ok(format!("{accepted}, met: {shapes}"))
    });
}

/// Where one check-sat sees other levels, the script differs there.
fn levels_group(audits: &mut Audits) {
    let scripts = audits.share(CHANGED_LEVELS);
    audits.group("audit, levels changed before a check-sat", |met| {
        let mut changes = Met::default();
        let mut random = Random::new(SEED);
        for number in 0..scripts {
            let asked = Asked::new(&mut random);
            let at = random.below(asked.stacks.len());
            let (change, apply) = LEVEL_CHANGES[number % LEVEL_CHANGES.len()];
            let mut stacks = asked.stacks.clone();
            apply(&mut random, &mut stacks[at]);
            let verdict = if same_levels(&asked.stacks[at], &stacks[at]) {
                Verdict::Agrees
            } else {
                Verdict::DiffersAt(at + 1)
            };
            let manners = Manners::random(&mut random);
            let call = AuditCall {
                book: &asked.book,
                questions: &bytes(&asked.questions),
                script: &ForeignWriter::script(&mut random, manners, &stacks),
            };
            let audited = call
                .expect_or(verdict, &REFUSED_ALL_THE_SAME, met)
                .map_err(|what| format!("{change}: {what}"))?;
            if audited.differs > 0 {
                changes.add(change);
            }
        }
        let names = LEVEL_CHANGES.map(|(name, _)| name);
        changes.only(&names)
    });
}

fn questions_group(audits: &mut Audits) {
    let scripts = audits.share(CHANGED_QUESTIONS);
    audits.group("audit, questions changed", |met| {
        let mut random = Random::new(SEED);
        for number in 0..scripts {
            let asked = Asked::new(&mut random);
            let change = QUESTION_CHANGES[number % QUESTION_CHANGES.len()];
            let questions = bytes(&asked.questions);
            let manners = Manners::random(&mut random);
            let call = AuditCall {
                book: &asked.book,
                questions: &changed_questions(&mut random, change, &questions, &asked.maker),
                script: &ForeignWriter::script(&mut random, manners, &asked.stacks),
            };
            let scratch = random_scratch(&mut random);
            call.compare(&scratch, met)
                .map_err(|what| format!("{change}: {what}"))?;
        }
        met.all_of(&[1, 7, 9, 26, 27].map(Outcome::Refused))?;
        met.all_of(&VERDICTS)
    });
}

/// An own text with damage to its bytes, and at times to its questions and its
/// book.
fn compare_damaged(random: &mut Random, own: &Own, met: &mut Met<Outcome>) -> Result<(), String> {
    let mut questions = own.question_bytes();
    if !questions.is_empty() && random.one_in(AT_TIMES) {
        let at = random.below(questions.len());
        questions[at] ^= 1 << random.below(u8::BITS as usize);
    } else if !questions.is_empty() && random.one_in(RARELY) {
        let change = random.pick(&QUESTION_CHANGES);
        questions = changed_questions(random, change, &questions, &own.maker);
    }
    let mut script = own.script.clone();
    if random.one_in(OFTEN) {
        script = damaged_script(random, &script);
    }
    let mut book = own.book.clone();
    if random.one_in(RARELY) {
        book = damaged(random, &own.maker);
    }
    let call = AuditCall {
        book: &book,
        questions: &questions,
        script: &script,
    };
    call.compare(&random_scratch(random), met).map(|_| ())
}

fn damage_group(audits: &mut Audits) {
    let scripts = audits.share(DAMAGED);
    audits.group("audit, damaged bytes", |met| {
        let mut random = Random::new(SEED);
        for _ in 0..scripts / DAMAGES {
            let own = Own::new(&mut random);
            for _ in 0..DAMAGES {
                compare_damaged(&mut random, &own, met)?;
            }
        }
        met.all_of(&[2, 3, 4, 5, 6, 28, 7, 25, 26, 27].map(Outcome::Refused))?;
        met.all_of(&VERDICTS)
    });
}

pub fn run(audits: &mut Audits) {
    own_group(audits);
    foreign_group(audits);
    levels_group(audits);
    questions_group(audits);
    damage_group(audits);
}
