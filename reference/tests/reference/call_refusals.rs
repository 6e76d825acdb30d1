//! Refusals 7 to 11 and their order, the replies' answers, and limits that
//! calls run into.

use crate::desk::{buffer, used, Answer, Desk};
use leskofar_reference::book::{Section, BOOL, INT};
use leskofar_reference::book_test::{MOST_DEPTH, SCRATCH_SIZE};
use leskofar_reference::image::IMAGE_SIZE;
use leskofar_reference::maker::{sample, Maker};
use leskofar_reference::operators::NAMES;
use leskofar_reference::refusal::{
    CONTENTS, MISSING_AXIOM, NOT_IN_BOOK, NO_MODEL_OWED, NO_REPLY_OWED, OPERATOR_CODE, REPLY_UNSAT,
    SCRATCH_SHORT, SOMETHING_OWED, TOO_LONG,
};
use leskofar_reference::{operator, print};

const POPS: &str = "(pop 1)\n(pop 1)\n";
const GET_MODEL: &str = "(get-model)\n";

#[test]
fn seven_is_for_nodes_and_terms_outside() {
    let sample = sample();
    let terms = sample.maker.terms.len() as u32;
    let mut desk = Desk::new(&sample.maker);
    for node in [4, u32::MAX] {
        assert_eq!(desk.move_to(node), Err(NOT_IN_BOOK));
        assert_eq!(desk.ask(node, 0), Err(NOT_IN_BOOK));
    }
    for term in [terms, u32::MAX] {
        assert_eq!(desk.ask(0, term), Err(NOT_IN_BOOK));
        let mut scratch = buffer(SCRATCH_SIZE);
        let answer = print(&desk.book, &mut scratch, term, 0, false, 0, &mut []);
        assert_eq!(answer, Err(NOT_IN_BOOK));
    }
    // A move has no term: the empty book can be moved on.
    let mut desk = Desk::new(&Maker::default());
    assert_eq!(desk.move_to(0).as_deref(), Ok(""));
    assert_eq!(desk.ask(0, 0), Err(NOT_IN_BOOK));
    // Before 20 and 21.
    let mut desk = Desk::new(&sample.maker);
    desk.ask(0, sample.goal).expect("accepted");
    assert_eq!(desk.move_to(4), Err(NOT_IN_BOOK));
    desk.image.fill(0xFF);
    assert_eq!(desk.ask(0, terms), Err(NOT_IN_BOOK));
    // After 1 to 6.
    desk.book.push(0);
    assert_eq!(desk.move_to(4), Err(CONTENTS));
    desk.scratch_size = 0;
    assert_eq!(desk.move_to(4), Err(SCRATCH_SHORT));
}

#[test]
fn reply_answers() {
    let sample = sample();
    let mut desk = Desk::new(&sample.maker);
    let pops = || POPS.to_string();
    let unproved = |reason: &[u8]| {
        let (text, reason) = (pops(), reason.to_vec());
        Ok(Answer::Unproved { text, reason })
    };
    let owed = Answer::ModelOwed {
        text: GET_MODEL.into(),
    };
    desk.move_to(3).expect("accepted");
    let at_node = desk.image.clone();
    let mut after = |replies: &[(bool, &[u8])], model: Option<(&[u8], Option<&[u8]>)>| {
        desk.ask(3, sample.goal).expect("accepted");
        let mut last = Err(0);
        for (failed, bytes) in replies {
            last = desk.reply(*failed, bytes);
        }
        if let Some((bytes, came)) = model {
            assert_eq!(last.as_ref(), Ok(&owed));
            assert_eq!(desk.reply(false, bytes), Err(NO_REPLY_OWED));
            assert_eq!(desk.model(b"unsat", came), Err(REPLY_UNSAT));
            last = desk.model(bytes, came);
        }
        assert_eq!(desk.image, at_node);
        last
    };
    let proved = Answer::Proved { text: pops() };
    assert_eq!(after(&[(false, b"unsat")], None), Ok(proved));
    // A failed check, whatever its error text is.
    assert_eq!(after(&[(true, b"unsat")], None), unproved(b"unsat"));
    assert_eq!(after(&[(true, b"")], None), unproved(b""));
    assert_eq!(after(&[(true, b"\xFF\n\0")], None), unproved(b"\xFF\n\0"));
    // Any other reply asks for a model.
    for reply in [
        &b"sat"[..],
        b"unknown",
        b"",
        b"unsat\n",
        b"UNSAT",
        b"\0\xFF",
    ] {
        let got_model = Some((reply, None));
        assert_eq!(after(&[(false, reply)], got_model), unproved(reply));
        let got_model = Some((reply, Some(&b"(model\n)"[..])));
        let reason = [reply, b"\n(model\n)"].concat();
        assert_eq!(after(&[(false, reply)], got_model), unproved(&reason));
        let got_model = Some((reply, Some(&b""[..])));
        let reason = [reply, b"\n"].concat();
        assert_eq!(after(&[(false, reply)], got_model), unproved(&reason));
    }
    // The session keeps no copy of the reply.
    let got_model = Some((&b"other"[..], None));
    assert_eq!(after(&[(false, b"sat")], got_model), unproved(b"other"));
}

#[test]
fn nine_is_for_missing_axioms_and_comes_before_ten() {
    let mut m = Maker::default();
    let f = m.function("f", &[], INT);
    let missing = m.axiom(None, &[f]);
    m.explained_by(f, &[missing]);
    let x = m.constant("x", INT);
    let harmless = m.id(x);
    m.context(0, harmless);
    let late = m.apply(f, &[]);
    m.context(1, late);
    let goal = m.apply(f, &[]);
    let mut desk = Desk::new(&m);
    for text_size in [1_000, 0] {
        desk.text_size = text_size;
        assert_eq!(desk.move_to(2), Err(MISSING_AXIOM));
        assert_eq!(desk.ask(0, goal), Err(MISSING_AXIOM));
        assert_eq!(desk.ask(1, goal), Err(MISSING_AXIOM));
        assert_eq!(desk.ask(2, harmless), Err(MISSING_AXIOM));
    }
    assert_eq!(desk.move_to(1), Err(TOO_LONG));
    // 21 comes first.
    desk.text_size = 1_000;
    desk.ask(1, harmless).expect("accepted");
    assert_eq!(desk.move_to(2), Err(SOMETHING_OWED));
    assert_eq!(desk.ask(1, goal), Err(SOMETHING_OWED));
}

#[test]
fn nine_is_found_inside_an_axioms_walk() {
    let mut m = Maker::default();
    let [f, g] = ["f", "g"].map(|name| m.function(name, &[], BOOL));
    let cond = m.apply(g, &[]);
    let [good, missing] = [m.axiom(Some(cond), &[f]), m.axiom(None, &[])];
    m.explained_by(f, &[good]);
    m.explained_by(g, &[missing]);
    let goal = m.apply(f, &[]);
    assert_eq!(Desk::new(&m).ask(0, goal), Err(MISSING_AXIOM));
}

#[test]
fn ten_is_for_short_buffers() {
    let sample = sample();
    let mut desk = Desk::new(&sample.maker);
    let whole = Desk::new(&sample.maker).ask(2, sample.goal);
    let size = whole.as_ref().expect("accepted").len();
    for short in [0, 1, size - 1] {
        desk.text_size = short;
        assert_eq!(desk.ask(2, sample.goal), Err(TOO_LONG));
    }
    desk.text_size = size;
    assert_eq!(desk.ask(2, sample.goal), whole);
    // Proved and a model owed need no reason buffer.
    desk.reason_size = 0;
    for (failed, reply, text) in [
        (false, &b"unsat"[..], POPS),
        (true, b"", POPS),
        (false, b"sat", GET_MODEL),
    ] {
        for short in [0, text.len() - 1] {
            desk.text_size = short;
            assert_eq!(desk.reply(failed, reply), Err(TOO_LONG));
        }
    }
    desk.text_size = POPS.len();
    assert_eq!(desk.reply(true, b"e"), Err(TOO_LONG));
    desk.text_size = GET_MODEL.len();
    assert!(desk.reply(false, b"sat").is_ok());
    // 8 comes before 10.
    desk.text_size = 0;
    assert_eq!(desk.model(b"unsat", None), Err(REPLY_UNSAT));
    for short in [0, POPS.len() - 1] {
        desk.text_size = short;
        assert_eq!(desk.model(b"", None), Err(TOO_LONG));
    }
    desk.text_size = POPS.len();
    desk.reason_size = 3;
    assert_eq!(desk.model(b"sat", Some(b"")), Err(TOO_LONG));
    assert_eq!(desk.model(b"no", Some(b"m")), Err(TOO_LONG));
    let reason = b"sat".to_vec();
    let text = POPS.to_string();
    assert_eq!(
        desk.model(b"sat", None),
        Ok(Answer::Unproved { text, reason })
    );
    assert_eq!(desk.model(b"unsat", None), Err(NO_MODEL_OWED));
}

#[test]
fn eleven_is_for_operator_codes_and_comes_before_ten() {
    for code in [0, NAMES.len() as u64 + 1, 1 << 32, u64::MAX] {
        assert_eq!(operator(code, &mut []), Err(OPERATOR_CODE));
    }
    let mut written = vec![];
    for code in 1..=NAMES.len() as u64 {
        let mut text = buffer(4);
        let length = operator(code, &mut text).expect("accepted");
        written.push(String::from_utf8(used(&text, length)).expect("ASCII"));
        let mut short = buffer(length - 1);
        assert_eq!(operator(code, &mut short), Err(TOO_LONG));
        assert_eq!(short, buffer(length - 1));
    }
    assert_eq!(written.join(" "), "= => and or = < <= + - * div mod not -");
}

#[test]
fn a_refused_ask_does_not_move() {
    let sample = sample();
    let mut desk = Desk::new(&sample.maker);
    desk.move_to(1).expect("accepted");
    let image = desk.image.clone();
    desk.text_size = 40;
    assert_eq!(desk.ask(3, sample.goal), Err(TOO_LONG));
    assert_eq!(desk.image, image);
    desk.text_size = 1_000;
    assert_eq!(desk.move_to(1).as_deref(), Ok(""));
}

#[test]
fn the_deepest_node() {
    let mut m = Maker::default();
    let x = m.constant("x", INT);
    let mut node = 0;
    for _ in 0..MOST_DEPTH {
        let term = m.boolean(true);
        node = m.context(node, term);
    }
    let goal = m.id(x);
    let mut desk = Desk::new(&m);
    let asked = desk.ask(node, goal).expect("accepted");
    assert_eq!(asked.matches("(push 1)\n").count(), MOST_DEPTH + 2);
    // The goal's declaration, one level deeper, is not stored.
    assert!(desk.image[16..].iter().all(|level| *level == 0));
    desk.reply(false, b"unsat").expect("accepted");
    let back = desk.move_to(0).expect("accepted");
    assert_eq!(back, "(pop 1)\n".repeat(MOST_DEPTH));
}

/// As many terms as a book has, one in the other, the innermost one applying
/// a function that an axiom explains by the whole. Asking the whole walks it
/// once more inside itself, and must not exhaust the stack.
fn nested(mut nest: impl FnMut(&mut Maker, u32) -> u32) -> String {
    let mut m = Maker::default();
    m.constant("v", INT);
    m.pattern(&[]);
    let f = m.function("f", &[], INT);
    let mut whole = m.apply(f, &[]);
    while m.terms.len() + 2 <= Section::Terms.most() {
        whole = nest(&mut m, whole);
    }
    let axiom = m.axiom(Some(whole), &[f]);
    m.explained_by(f, &[axiom]);
    let mut desk = Desk::new(&m);
    desk.text_size *= 2;
    desk.ask(0, whole).expect("accepted")
}

#[test]
fn the_deepest_terms() {
    let most = Section::Terms.most();
    let text = nested(|m, rhs| {
        let body = m.id(0);
        m.let_expr(0, rhs, body)
    });
    assert_eq!(text.matches("(let ((v ").count(), 2 * (most / 2 - 1));

    let text = nested(|m, body| m.quantifier(true, &[0], &[0], body));
    let opened = text.matches("(forall ((v Int)) (! ").count();
    assert_eq!(opened, 2 * (most - 2));

    let text = nested(|m, body| m.quantifier(false, &[], &[], body));
    let expected =
        "(push 1)\n(declare-fun f () Int)\n(assert f)\n(push 1)\n(assert (not f))\n(check-sat)\n";
    assert_eq!(text, expected);
}

/// A text far longer than memory is only counted.
#[test]
fn the_longest_text() {
    let mut m = Maker::default();
    let letters = Section::Letters.most();
    let typ = m.user_type(&"t".repeat(letters));
    m.names.push([0, letters as u32]);
    m.constants.push([1, typ]);
    m.lists.resize(Section::Lists.most(), 0);
    let lists = m.lists.len() as u32;
    let mut term = m.boolean(true);
    while m.terms.len() < Section::Terms.most() {
        let fields = [1, 0, lists, 0, 0, term];
        term = m.term(leskofar_reference::book::kind::QUANTIFIER, fields);
    }
    let mut desk = Desk::new(&m);
    assert_eq!(desk.ask(0, term), Err(TOO_LONG));
    assert_eq!(desk.image.len(), IMAGE_SIZE);
}
