//! Audits on books with `%tag`, by every name and wherever a literal may be.

use crate::audit::Audits;
use crate::audit_call::{AuditCall, Outcome};
use crate::audit_texts::own_text;
use crate::tally::Met;
use leskofar_reference::audit::Verdict;
use leskofar_reference::audit_samples::{bytes, Question};
use leskofar_reference::book::INT;
use leskofar_reference::maker::{sample, Maker, Sample};
use leskofar_reference::refusal::TAG_IN_BOOK;

type Answer = Result<Verdict, u32>;

const AGREES: Answer = Ok(Verdict::Agrees);

/// Adds a record, and gives its number.
type Naming = fn(&mut Maker) -> u32;
/// Adds a literal `%tag`, and gives a question about it in place of another.
type Using = fn(&mut Maker, Question) -> Question;

fn add_tag(m: &mut Maker) -> u32 {
    m.literal("%tag", INT)
}

/// `%tag` as other names, and as a literal, unused and beside the path.
const NAMINGS: [(Naming, Answer); 6] = [
    (|m| m.constant("%tag", INT), AGREES),
    (|m| m.function("%tag", &[], INT), AGREES),
    (|m| m.built_in("%tag", &[]), AGREES),
    (|m| m.literal("%tag ", INT), AGREES),
    (add_tag, Err(TAG_IN_BOOK)),
    (
        |m| {
            let term = add_tag(m);
            m.context(0, term)
        },
        Err(TAG_IN_BOOK),
    ),
];

/// `%tag` on the path, at its end and above that, and as the goal and in it.
const USES: [Using; 4] = [
    |m, [node, goal]| {
        let term = add_tag(m);
        [m.context(node, term), goal]
    },
    |m, [node, goal]| {
        let tag = add_tag(m);
        let [upper, lower] = [m.built_in("=", &[tag]), m.boolean(true)];
        let upper = m.context(node, upper);
        [m.context(upper, lower), goal]
    },
    |m, [node, _]| [node, add_tag(m)],
    |m, [node, _]| {
        let tag = add_tag(m);
        [node, m.built_in("not", &[tag])]
    },
];

/// The own text of a question.
fn expect_own(
    m: &Maker,
    question: Question,
    answer: Answer,
    met: &mut Met<Outcome>,
) -> Result<(), String> {
    let book = m.book();
    let [node, goal] = question;
    let call = AuditCall {
        book: &book,
        questions: &bytes(&[question]),
        script: &own_text(&book, node, goal)?,
    };
    call.expect(answer, met)
}

fn tags(met: &mut Met<Outcome>) -> Result<String, String> {
    let Sample { maker, goal } = sample();
    let asked = [maker.contexts.len() as u32, goal];
    for (name, answer) in NAMINGS {
        let mut m = maker.clone();
        name(&mut m);
        expect_own(&m, asked, answer, met)?;
    }
    for use_tag in USES {
        let mut m = maker.clone();
        let asked = use_tag(&mut m, asked);
        expect_own(&m, asked, Err(TAG_IN_BOOK), met)?;
    }
    Ok(met.said())
}

pub fn run(audits: &mut Audits) {
    audits.group("audit, %tag by every name", tags);
}
