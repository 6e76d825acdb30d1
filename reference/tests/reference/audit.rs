//! Audits of scripts: what is compared, and where a script first differs.

use crate::desk::{buffer, Desk};
use leskofar_reference::audit;
use leskofar_reference::audit::{Verdict, SCRIPT_MOST};
use leskofar_reference::audit_samples::{bytes, Long, POP};
use leskofar_reference::book::INT;
use leskofar_reference::book_test::{MOST_DEPTH, SCRATCH_SIZE};
use leskofar_reference::maker::{sample, Maker, Sample};
use leskofar_reference::refusal::CHECKS_DIFFER;

/// A scratch that is longer than it need be.
const LONG_SCRATCH: usize = SCRATCH_SIZE + 77;

/// What this writer sends for the sample's goal at node 3, from the root.
pub const OWN: &str = "(push 1)
(declare-fun x () Int)
(assert (< 0 x))
(push 1)
(assert (< x 9))
(push 1)
(declare-fun f (Int) Int)
(assert (forall ((z Int)) (= (f z) z)))
(declare-fun y () Int)
(push 1)
(assert (not (< 0 (f y))))
(check-sat)
";
/// The node of that question.
pub const NODE: u32 = 3;

/// The call on a book and bytes.
pub fn audited(book: &[u8], questions: &[u8], script: &[u8]) -> Result<Verdict, u32> {
    let answers = [SCRATCH_SIZE, LONG_SCRATCH].map(|size| {
        let mut scratch = buffer(size);
        let answer = audit(book, &mut scratch, questions, script);
        assert!(scratch.iter().all(|byte| *byte == 0));
        answer
    });
    assert_eq!(answers[0], answers[1]);
    answers[0]
}

/// A script for the sample's goal at node 3, asked so many times.
fn of_sample(times: usize, script: &str) -> Result<Verdict, u32> {
    let Sample { maker, goal } = sample();
    let questions = vec![[NODE, goal]; times];
    audited(&maker.book(), &bytes(&questions), script.as_bytes())
}

#[test]
fn own_text_is_accepted() {
    let Sample { maker, goal } = sample();
    let mut desk = Desk::new(&maker);
    assert_eq!(desk.ask(NODE, goal).as_deref(), Ok(OWN));
    assert_eq!(of_sample(1, OWN), Ok(Verdict::Agrees));
}

/// The sample session of document 01, with a refused call and a failed check.
#[test]
fn a_list_of_calls_is_accepted() {
    let Sample { maker, goal } = sample();
    let mut desk = Desk::new(&maker);
    let mut text = String::new();
    text += &desk.move_to(2).expect("accepted");
    text += &desk.ask(2, goal).expect("accepted");
    assert!(desk.move_to(1).is_err());
    for (failed, node) in [(true, 1), (false, NODE)] {
        text += "(pop 1)\n(pop 1)\n";
        desk.reply(failed, b"unsat").expect("accepted");
        text += &desk.ask(node, goal).expect("accepted");
    }
    let questions = bytes(&[[2, goal], [1, goal], [NODE, goal]]);
    let book = maker.book();
    let answer = audited(&book, &questions, text.as_bytes());
    assert_eq!(answer, Ok(Verdict::Agrees));
    // Two questions changed about.
    let questions = bytes(&[[2, goal], [NODE, goal], [1, goal]]);
    let answer = audited(&book, &questions, text.as_bytes());
    assert_eq!(answer, Ok(Verdict::DiffersAt(2)));
}

#[test]
fn the_order_within_a_level_is_free() {
    let mut lines: Vec<&str> = OWN.lines().collect();
    lines.swap(1, 2);
    lines.swap(6, 8);
    let text = lines.join("\n") + "\n";
    assert_ne!(text, OWN);
    assert_eq!(of_sample(1, &text), Ok(Verdict::Agrees));
    // But not among levels.
    for (from, to) in [(1, 4), (4, 6), (8, 10), (3, 1), (0, 1), (9, 10)] {
        let mut lines: Vec<&str> = OWN.lines().collect();
        lines.swap(from, to);
        let text = lines.join("\n") + "\n";
        let answer = of_sample(1, &text);
        assert_eq!(answer, Ok(Verdict::DiffersAt(1)), "{from}, {to}");
    }
}

#[test]
fn what_changes_nothing() {
    let strewn = OWN.replace('\n', "\n(get-model)\n(push 1)\n(assert false)\n(pop 1)\n");
    assert_eq!(of_sample(1, &strewn), Ok(Verdict::Agrees));
    let behind = format!("{OWN}(pop 1)\n(assert )\n(push 1)\n(get-model)\n");
    assert_eq!(of_sample(1, &behind), Ok(Verdict::Agrees));
    // Down to the root, and the same anew; and the same asked again.
    let pops = POP.repeat(4);
    let text = format!("(get-model)\n{OWN}{pops}{OWN}(check-sat)\n");
    assert_eq!(of_sample(3, &text), Ok(Verdict::Agrees));
    assert_eq!(of_sample(2, &text), Err(CHECKS_DIFFER));
    assert_eq!(of_sample(4, &text), Err(CHECKS_DIFFER));
}

#[test]
fn each_line_left_out_or_twice() {
    let lines: Vec<&str> = OWN.lines().collect();
    for at in 0..lines.len() - 1 {
        for times in [0, 2] {
            let repeated = vec![lines[at]; times];
            let changed = [&lines[..at], &repeated, &lines[at + 1..]].concat();
            let text = changed.join("\n") + "\n";
            assert_eq!(of_sample(1, &text), Ok(Verdict::DiffersAt(1)), "{text}");
            // Behind one that agrees.
            let text = format!("{OWN}{}{text}", POP.repeat(4));
            assert_eq!(of_sample(2, &text), Ok(Verdict::DiffersAt(2)), "{text}");
        }
    }
}

#[test]
fn a_line_at_the_first_level_differs() {
    let text = format!("(assert true)\n{OWN}");
    assert_eq!(of_sample(1, &text), Ok(Verdict::DiffersAt(1)));
    let text = format!("{OWN}{}(assert true)\n{OWN}", POP.repeat(4));
    assert_eq!(of_sample(2, &text), Ok(Verdict::DiffersAt(2)));
}

/// Two constants that look alike: the line stands there twice, and once or
/// three times is not the same.
#[test]
fn lines_count_as_often_as_they_stand_there() {
    let mut m = Maker::default();
    let [a, b] = [(); 2].map(|()| m.constant("c", INT));
    let args = [m.id(a), m.id(b)];
    let goal = m.built_in("=", &args);
    let declared = "(declare-fun c () Int)\n";
    for times in 0..4 {
        let text = format!(
            "(push 1)\n{}(push 1)\n(assert (not (= c c)))\n(check-sat)\n",
            declared.repeat(times)
        );
        let answer = audited(&m.book(), &bytes(&[[0, goal]]), text.as_bytes());
        let agrees = times == 2;
        assert_eq!(answer == Ok(Verdict::Agrees), agrees, "{times}");
        assert_eq!(answer == Ok(Verdict::DiffersAt(1)), !agrees);
    }
}

#[test]
fn no_questions_and_no_lines() {
    let book = Maker::default().book();
    assert_eq!(audited(&book, &[], b""), Ok(Verdict::Agrees));
    let text = b"(push 1)\n(get-model)\n(assert )\n";
    assert_eq!(audited(&book, &[], text), Ok(Verdict::Agrees));
    assert_eq!(audited(&book, &[], b"(check-sat)\n"), Err(CHECKS_DIFFER));
    assert_eq!(of_sample(1, ""), Err(CHECKS_DIFFER));
}

#[test]
fn the_deepest_node() {
    let mut m = Maker::default();
    let mut node = 0;
    for _ in 0..MOST_DEPTH {
        let term = m.boolean(true);
        node = m.context(node, term);
    }
    let goal = m.boolean(false);
    let text = Desk::new(&m).ask(node, goal).expect("accepted");
    let questions = bytes(&[[node, goal]]);
    let answer = audited(&m.book(), &questions, text.as_bytes());
    assert_eq!(answer, Ok(Verdict::Agrees));
    let questions = bytes(&[[node - 1, goal]]);
    let answer = audited(&m.book(), &questions, text.as_bytes());
    assert_eq!(answer, Ok(Verdict::DiffersAt(1)));
}

#[test]
fn the_longest_own_text() {
    let Long { maker, node, goal } = Long::new(SCRIPT_MOST);
    let mut desk = Desk::new(&maker);
    let text = desk.ask(node, goal).expect("accepted");
    assert_eq!(text.len(), SCRIPT_MOST);
    let questions = bytes(&[[node, goal]]);
    let answer = audited(&maker.book(), &questions, text.as_bytes());
    assert_eq!(answer, Ok(Verdict::Agrees));
    // A longer one differs from every script.
    let Long { maker, node, goal } = Long::new(SCRIPT_MOST + 1);
    let questions = bytes(&[[node, goal]]);
    let answer = audited(&maker.book(), &questions, text.as_bytes());
    assert_eq!(answer, Ok(Verdict::DiffersAt(1)));
}
