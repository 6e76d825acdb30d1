//! The order of an audit's refusals: every one with every later one, and
//! scripts at the border of their length.

use crate::audit::Audits;
use crate::audit_call::{AuditCall, Outcome, REFUSALS};
use crate::made_books::{each_fault, full, good_books};
use crate::scratch_bytes::{LEAST, LENGTHS};
use crate::tally::Met;
use leskofar_reference::audit::{Verdict, SCRIPT_MOST};
use leskofar_reference::audit_samples::{
    bytes, lacking_function, script_of, Question, CHECK_SAT, POP, PUSH,
};
use leskofar_reference::book::INT;
use leskofar_reference::maker::Maker;
use leskofar_reference::random::Random;
use leskofar_reference::refusal::{
    CHECKS_DIFFER, FOREIGN_LINE, MISSING_AXIOM, NOT_IN_BOOK, SCRATCH_SHORT, TAG_IN_BOOK,
};

const SEED: u64 = 0x6F72_6465;

/// Scripts of every length that counts, good and foreign.
fn scripts() -> Vec<Vec<u8>> {
    let mut scripts = vec![
        b"".to_vec(),
        PUSH.into(),
        CHECK_SAT.into(),
        b"foreign\n".to_vec(),
        POP.into(),
    ];
    for length in [SCRIPT_MOST - 1, SCRIPT_MOST, SCRIPT_MOST + 1] {
        scripts.extend([script_of(length), vec![b'\n'; length], vec![0; length]]);
    }
    scripts
}

/// Questions of every sort for a book with so many nodes and terms.
fn questions(nodes: u32, terms: u32) -> Vec<Vec<u8>> {
    vec![
        vec![],
        bytes(&[[0, 0]]),
        bytes(&[[nodes, terms - 1], [0, 0]]),
        bytes(&[[nodes + 1, 0]]),
        bytes(&[[0, terms]]),
        bytes(&[[u32::MAX, u32::MAX]]),
        vec![0; 9],
    ]
}

/// A book with a function that lacks its axiom, and one that does not; with a
/// `%tag` or without.
struct Ladder {
    book: Vec<u8>,
    good: Question,
    lacking: Question,
    outside: Question,
}

fn ladder(has_tag: bool) -> Ladder {
    let mut m = Maker::default();
    let f = lacking_function(&mut m);
    let premise = m.boolean(true);
    let node = m.context(0, premise);
    let [good, lacking] = [m.boolean(false), m.apply(f, &[])];
    m.literal(if has_tag { "%tag" } else { "%tags" }, INT);
    Ladder {
        book: m.book(),
        good: [node, good],
        lacking: [node, lacking],
        outside: [node + 1, good],
    }
}

/// What is sent for the good question of a ladder, but for the check-sat.
pub const GOOD_LEVELS: &str = "(push 1)
(assert true)
(push 1)
(push 1)
(assert (not false))
";

/// Check-sats against questions.
#[derive(Clone, Copy, PartialEq)]
enum Checks {
    OneLess,
    AsMany,
    OneMore,
}

/// What is wrong with a call, from the first refusal on.
struct Faults {
    outside: bool,
    lacks: bool,
    has_tag: bool,
    foreign: bool,
    checks: Checks,
    differs: bool,
}

impl Faults {
    /// Choices of the faults that are there or not.
    const CHOICES: u32 = 1 << 5;

    fn of(choice: u32, checks: Checks) -> Faults {
        let [outside, lacks, has_tag, foreign, differs] =
            [0, 1, 2, 3, 4].map(|k| choice >> k & 1 == 1);
        Faults {
            outside,
            lacks,
            has_tag,
            foreign,
            checks,
            differs,
        }
    }

    /// The first of them decides.
    fn answer(&self) -> Result<Verdict, u32> {
        let refusals = [
            (self.outside, NOT_IN_BOOK),
            (self.lacks, MISSING_AXIOM),
            (self.has_tag, TAG_IN_BOOK),
            (self.foreign, FOREIGN_LINE),
            (self.checks != Checks::AsMany, CHECKS_DIFFER),
        ];
        match refusals.into_iter().find(|(is_there, _)| *is_there) {
            Some((_, refusal)) => Err(refusal),
            None if self.differs => Ok(Verdict::DiffersAt(1)),
            None => Ok(Verdict::Agrees),
        }
    }

    fn questions(&self, ladder: &Ladder) -> Vec<Question> {
        let mut questions = vec![ladder.good];
        questions.extend(self.lacks.then_some(ladder.lacking));
        questions.extend(self.outside.then_some(ladder.outside));
        questions
    }

    /// A check-sat for each question, or one less or more.
    fn script(&self) -> String {
        let questions = 1 + usize::from(self.lacks) + usize::from(self.outside);
        let checks = match self.checks {
            Checks::OneLess => questions - 1,
            Checks::AsMany => questions,
            Checks::OneMore => questions + 1,
        };
        let before = if self.differs { "(assert true)\n" } else { "" };
        let behind = if self.foreign { "(push)\n" } else { "" };
        let checks = CHECK_SAT.repeat(checks);
        format!("{before}{GOOD_LEVELS}{checks}{behind}")
    }
}

/// Every choice of 7, 9, 25, 26, 27 and a script that differs.
fn expect_each_choice(met: &mut Met<Outcome>) -> Result<(), String> {
    for choice in 0..Faults::CHOICES {
        for checks in [Checks::OneLess, Checks::AsMany, Checks::OneMore] {
            let faults = Faults::of(choice, checks);
            let ladder = ladder(faults.has_tag);
            let script = faults.script();
            let call = AuditCall {
                book: &ladder.book,
                questions: &bytes(&faults.questions(&ladder)),
                script: script.as_bytes(),
            };
            call.expect(faults.answer(), met)?;
        }
    }
    Ok(())
}

/// The faulty books made of a good one, with every script and questions of
/// every sort.
fn compare_faulty_books(m: &Maker, met: &mut Met<Outcome>) -> Result<(), String> {
    let questions = questions(m.contexts.len() as u32, m.terms.len() as u32);
    for book in &each_fault(m) {
        for script in &scripts() {
            for questions in &questions {
                for scratch in [&LEAST[1..], &LEAST] {
                    let call = AuditCall {
                        book,
                        questions,
                        script,
                    };
                    call.compare(scratch, met)?;
                }
            }
        }
    }
    Ok(())
}

/// Scripts that are accepted, that differ and that are refused.
fn every_scratch(met: &mut Met<Outcome>) -> Result<String, String> {
    let one = bytes(&[[0, 0]]);
    let checked = format!("{GOOD_LEVELS}{CHECK_SAT}");
    let scripts = [
        (&[][..], ""),
        (&one, ""),
        (&one, CHECK_SAT),
        (&one, &checked),
    ];
    let mut random = Random::new(SEED);
    for m in good_books() {
        let book = &m.book();
        for (questions, script) in scripts {
            for length in LENGTHS {
                let call = AuditCall {
                    book,
                    questions,
                    script: script.as_bytes(),
                };
                call.compare(&random.bytes(length), met)?;
            }
        }
    }
    met.all_of(&[Outcome::Accepted, Outcome::DiffersAtOnce])?;
    met.all_of(&[SCRATCH_SHORT, NOT_IN_BOOK, TAG_IN_BOOK, CHECKS_DIFFER].map(Outcome::Refused))
}

pub fn run(audits: &mut Audits) {
    audits.group("audit, every refusal with every later one", |met| {
        let mut m = full();
        compare_faulty_books(&m, met)?;
        m.literal("%tag", INT);
        compare_faulty_books(&m, met)?;
        expect_each_choice(met)?;
        met.all_of(&REFUSALS)
    });
    audits.group("audit, every scratch", every_scratch);
}
