//! The audit's refusals, and their order.

use crate::audit::{audited, NODE, OWN};
use crate::book_refusals::faulty;
use crate::desk::buffer;
use leskofar_reference::audit;
use leskofar_reference::audit::{Verdict, QUESTION_SIZE, SCRIPT_MOST};
use leskofar_reference::audit_samples::{bytes, lacking, script_of, CHECK_SAT, POP};
use leskofar_reference::book::INT;
use leskofar_reference::book_test::SCRATCH_SIZE;
use leskofar_reference::maker::{sample, Maker, Sample};
use leskofar_reference::refusal::{
    CHECKS_DIFFER, CONTENTS, COUNT, FOREIGN_LINE, MISSING_AXIOM, NOT_IN_BOOK, SCRATCH_SHORT,
    TAG_IN_BOOK,
};

#[test]
fn three_for_a_script_stands_in_its_own_place() {
    let book = Maker::default().book();
    for length in [SCRIPT_MOST - 1, SCRIPT_MOST] {
        assert_eq!(audited(&book, &[], &script_of(length)), Ok(Verdict::Agrees));
    }
    for length in [SCRIPT_MOST + 1, 2 * SCRIPT_MOST] {
        let script = script_of(length);
        // Before what is wrong with the questions.
        for questions in [vec![], vec![0], bytes(&[[9, 9]])] {
            assert_eq!(audited(&book, &questions, &script), Err(COUNT));
        }
        for (book, refusal) in faulty() {
            let expected = if refusal == CONTENTS { CONTENTS } else { COUNT };
            assert_eq!(audited(&book, &[], &script), Err(expected));
            assert_eq!(audited(&book, &[], b""), Err(refusal));
        }
    }
}

#[test]
fn a_short_scratch_comes_first() {
    let good = sample().maker.book();
    for book in [&good[..], &good[1..]] {
        for script in [vec![], b"a".to_vec(), script_of(SCRIPT_MOST + 1)] {
            for size in [0, 1, SCRATCH_SIZE - 1] {
                let mut scratch = buffer(size);
                let answer = audit(book, &mut scratch, &[1], &script);
                assert_eq!(answer, Err(SCRATCH_SHORT));
                assert_eq!(scratch, buffer(size));
            }
        }
    }
}

#[test]
fn seven_for_any_question_before_nine_for_another() {
    let mut m = lacking();
    let good = m.boolean(true);
    let book = m.book();
    let fails = [2, good];
    let outside = [[5, good], [0, good + 1], [u32::MAX, good], [0, u32::MAX]];
    for outside in outside {
        for questions in [&[outside][..], &[fails, outside], &[outside, fails]] {
            let answer = audited(&book, &bytes(questions), b"foreign");
            assert_eq!(answer, Err(NOT_IN_BOOK));
        }
    }
    for cut in 1..QUESTION_SIZE {
        let mut questions = bytes(&[fails, [0, 0]]);
        questions.truncate(questions.len() - cut);
        assert_eq!(audited(&book, &questions, b""), Err(NOT_IN_BOOK));
    }
    // On the path, below it and for the goal alone, wherever it stands.
    for fails in [fails, [3, good], [0, 1]] {
        for questions in [&[fails][..], &[[1, good], fails], &[fails, [4, good]]] {
            let answer = audited(&book, &bytes(questions), b"foreign");
            assert_eq!(answer, Err(MISSING_AXIOM));
        }
    }
    let answer = audited(&book, &bytes(&[[1, good]]), b"");
    assert_eq!(answer, Err(CHECKS_DIFFER));
}

#[test]
fn twenty_five_is_for_literals_used_or_not() {
    let mut m = lacking();
    let good = m.boolean(true);
    m.constant("%tag", INT);
    m.function("%tag", &[], INT);
    m.built_in("%tag", &[]);
    m.literal("%tag ", INT);
    m.literal("%ta", INT);
    assert_eq!(audited(&m.book(), &[], b""), Ok(Verdict::Agrees));
    m.literal("%tag", INT);
    let book = m.book();
    for script in [&b""[..], b"foreign", b"(check-sat)\n", b"(pop 1)\n"] {
        assert_eq!(audited(&book, &[], script), Err(TAG_IN_BOOK));
        let answer = audited(&book, &bytes(&[[2, good]]), script);
        assert_eq!(answer, Err(MISSING_AXIOM));
    }
}

#[test]
fn twenty_six_for_the_whole_script_before_twenty_seven() {
    let Sample { maker, goal } = sample();
    let book = maker.book();
    let questions = bytes(&[[NODE, goal]]);
    for behind in ["\n", "a", "(push 1)", "(check-sat)\n;\n", "(assert |)\n"] {
        // Behind what agrees, what differs and too many check-sats.
        for before in [OWN, "(check-sat)\n", "(check-sat)\n(check-sat)\n", ""] {
            let script = format!("{before}{behind}");
            let answer = audited(&book, &questions, script.as_bytes());
            assert_eq!(answer, Err(FOREIGN_LINE), "{script}");
        }
    }
    let pops = POP.repeat(5);
    for script in [format!("{OWN}{pops}"), pops, "(pop 1)\n(push 1)\n".into()] {
        let answer = audited(&book, &questions, script.as_bytes());
        assert_eq!(answer, Err(FOREIGN_LINE), "{script}");
    }
    let without_end = &OWN[..OWN.len() - 1];
    let answer = audited(&book, &questions, without_end.as_bytes());
    assert_eq!(answer, Err(FOREIGN_LINE));
}

#[test]
fn twenty_seven_before_any_comparison() {
    let Sample { maker, goal } = sample();
    let book = maker.book();
    let asked = [NODE, goal];
    for (times, checks) in [(0, 1), (1, 0), (1, 2), (2, 1), (3, 2)] {
        let questions = bytes(&vec![asked; times]);
        let script = CHECK_SAT.repeat(checks);
        let answer = audited(&book, &questions, script.as_bytes());
        assert_eq!(answer, Err(CHECKS_DIFFER));
    }
}
