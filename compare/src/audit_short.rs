//! Every short script of some commands, and longer ones of random commands, on
//! a small book.

use crate::audit::Audits;
use crate::audit_call::{AuditCall, Outcome, VERDICTS};
use crate::tally::Met;
use leskofar_reference::audit_samples::{bytes, Question, CHECK_SAT, POP, PUSH};
use leskofar_reference::maker::Maker;
use leskofar_reference::random::{Random, RARELY};

const SEED: u64 = 0x7368_6F72;
/// The commands of every short script, and the most lines of one.
const FEW: [&str; 5] = [
    PUSH,
    POP,
    CHECK_SAT,
    "(assert (not true))\n",
    "(assert true)\n",
];
const SHORT: usize = 7;
/// The commands of random scripts: rows of them, so that questions agree.
const MANY: [&str; 10] = [
    PUSH,
    POP,
    CHECK_SAT,
    "(get-model)\n",
    "(assert true)\n",
    "(push 1)\n(assert true)\n",
    "(push 1)\n(push 1)\n(assert (not true))\n",
    "(push 1)\n(push 1)\n(assert (not false))\n",
    "(check-sat)\n(pop 1)\n(pop 1)\n",
    "(declare-sort T 0)\n",
];
const LONG: usize = 20;
const RANDOM_SCRIPTS: usize = 30_000;

/// The root and a node below it.
const NODES: [u32; 2] = [0, 1];

/// Node 1 asserts `true`; the goals are `true` and `false`.
fn small_book() -> (Vec<u8>, [u32; 2]) {
    let mut m = Maker::default();
    let premise = m.boolean(true);
    m.context(0, premise);
    let goals = [true, false].map(|value| m.boolean(value));
    (m.book(), goals)
}

/// The scripts of so many lines, each by a number.
fn short_script(length: usize, number: usize) -> String {
    let mut rest = number;
    let lines = (0..length).map(|_| {
        let line = FEW[rest % FEW.len()];
        rest /= FEW.len();
        line
    });
    lines.collect()
}

/// As many questions as check-sats: all the same, or in turn.
fn every_short_script(met: &mut Met<Outcome>) -> Result<String, String> {
    let (book, [yes, no]) = small_book();
    for length in 0..=SHORT {
        for number in 0..FEW.len().pow(length as u32) {
            let script = short_script(length, number);
            let checks = script.matches(CHECK_SAT).count();
            let turns = [[0, yes], [1, yes], [0, no]].into_iter().cycle();
            let lists: [Vec<Question>; 2] = [vec![[0, yes]; checks], turns.take(checks).collect()];
            for questions in &lists[..checks.clamp(1, 2)] {
                let call = AuditCall {
                    book: &book,
                    questions: &bytes(questions),
                    script: script.as_bytes(),
                };
                call.compare_plainly(met)?;
            }
        }
    }
    met.all_of(&VERDICTS)?;
    met.all_of(&[Outcome::Refused(26)])
}

fn random_scripts(scripts: usize, met: &mut Met<Outcome>) -> Result<String, String> {
    let (book, goals) = small_book();
    let mut random = Random::new(SEED);
    for _ in 0..scripts {
        let lines = random.up_to(LONG);
        let script: String = (0..lines).map(|_| random.pick(&MANY)).collect();
        let checks = script.matches(CHECK_SAT).count();
        let more = usize::from(random.one_in(RARELY));
        let questions: Vec<Question> = (0..checks + more)
            .map(|_| [random.pick(&NODES), random.pick(&goals)])
            .collect();
        let call = AuditCall {
            book: &book,
            questions: &bytes(&questions),
            script: script.as_bytes(),
        };
        call.compare_plainly(met)?;
    }
    met.all_of(&VERDICTS)?;
    met.all_of(&[26, 27].map(Outcome::Refused))
}

pub fn run(audits: &mut Audits) {
    audits.group("audit, every short script", every_short_script);
    let scripts = audits.share(RANDOM_SCRIPTS);
    audits.group("audit, scripts of random commands", |met| {
        random_scripts(scripts, met)
    });
}
