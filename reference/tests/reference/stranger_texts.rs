//! Texts that have a stranger, and random lists of calls, which have none.

use crate::stranger_desk::Run;
use leskofar_reference::apart_books::apart_book;
use leskofar_reference::book_test::check;
use leskofar_reference::maker::sample;
use leskofar_reference::program::Program;
use leskofar_reference::random::{Random, OFTEN};
use leskofar_reference::random_books::{random_book, Counts};
use leskofar_reference::strangers::Breach;

const SEED: u64 = 0xA11;
/// Random lists, their most calls, and the sizes of their books.
const LISTS: usize = 6_000;
const CALLS: usize = 6;
const SIZES: [usize; 3] = [1, 4, 8];

const DECLARED: &str = "(declare-fun x () Int)\n";
const ASSERTED: &str = "(assert (< 0 x))\n";

/// Texts for node 1 of the sample in the stead of the session's.
#[test]
fn strangers_of_every_kind() {
    let run = Run::moved(&sample().maker, 1);
    assert_eq!(run.text, format!("(push 1)\n{DECLARED}{ASSERTED}"));
    let symbol = || "(declare-fun x () Int)".to_string();
    let not_once = |assertion, times| Breach::NotOnce {
        assertion,
        symbol: symbol(),
        times,
    };
    let not_its_own = |declaration| Breach::NotItsOwn {
        assertion: 3,
        symbol: symbol(),
        declaration,
    };
    let texts = [
        (format!("(push 1)\n{ASSERTED}"), vec![not_once(2, 0)]),
        (
            format!("(push 1)\n{DECLARED}{DECLARED}{ASSERTED}"),
            vec![not_once(4, 2)],
        ),
        // In the other name space, and popped.
        (
            format!("(push 1)\n(declare-sort x 0)\n{ASSERTED}"),
            vec![not_once(3, 0)],
        ),
        (
            format!("(push 1)\n{DECLARED}(pop 1)\n(push 1)\n{ASSERTED}"),
            vec![not_once(5, 0)],
        ),
        // At a lower level it may stand.
        (format!("{DECLARED}(push 1)\n{ASSERTED}"), vec![]),
        (
            format!("(push 1)\n(declare-fun x () Bool)\n{ASSERTED}"),
            vec![not_its_own(2)],
        ),
        (
            format!("(push 1)\n(declare-fun |x| () Int)\n{ASSERTED}"),
            vec![not_its_own(2)],
        ),
        (
            format!("(push 1)\n{DECLARED}(assert (< 1 x))\n"),
            vec![Breach::NoTerm { assertion: 3 }],
        ),
        (
            format!("(push 1)\n{DECLARED}{ASSERTED}{ASSERTED}"),
            vec![Breach::NoTerm { assertion: 3 }],
        ),
        (
            format!("{DECLARED}(push 1)\n"),
            vec![Breach::Level { level: 1 }],
        ),
        (
            format!("(push 1)\n{DECLARED}{ASSERTED}(push 1)\n"),
            vec![Breach::Level { level: 2 }],
        ),
    ];
    for (text, breaches) in texts {
        let found = run.look_at(&text, |_, look| look.breaches);
        assert_eq!(found, breaches, "{text}");
    }
}

/// The axiom of f before the declaration, and node 1's symbol at node 2's level.
#[test]
fn declarations_that_come_too_late() {
    let run = Run::moved(&sample().maker, 2);
    let late = |assertion, symbol: &str, declaration| Breach::NotEarlier {
        assertion,
        symbol: symbol.into(),
        declaration,
    };
    let f = "(declare-fun f (Int) Int)\n";
    let axiom = "(assert (forall ((z Int)) (= (f z) z)))\n";
    let text = run
        .text
        .replace(&format!("{f}{axiom}"), &format!("{axiom}{f}"));
    let breaches = run.look_at(&text, |_, look| look.breaches);
    assert_eq!(breaches, [late(6, f.trim_end(), 7)]);
    let text = run.text.replace(DECLARED, "") + DECLARED;
    let text = text.replace(
        &format!("(assert (= y (f x)))\n{DECLARED}"),
        &format!("{DECLARED}(assert (= y (f x)))\n"),
    );
    let breaches = run.look_at(&text, |_, look| look.breaches);
    assert_eq!(breaches, [late(2, DECLARED.trim_end(), 7)]);
}

/// A random call of a list that is accepted, or none.
fn random_call(random: &mut Random, program: &Program, run: &mut Run) {
    if run.goal.is_some() {
        return run.reply(b"unsat");
    }
    let node = random.up_to(program.nodes().len()) as u32;
    if random.one_in(OFTEN) || program.terms.is_empty() {
        if let Ok(text) = run.desk.move_to(node) {
            run.text += &text;
            run.node = node;
        }
    } else {
        let goal = random.below(program.terms.len()) as u32;
        if let Ok(text) = run.desk.ask(node, goal) {
            run.text += &text;
            (run.node, run.goal) = (node, Some(goal));
        }
    }
}

/// On told-apart books there is no breach; without one of the lines that
/// declare a symbol of an assertion there is one.
#[test]
fn random_lists_on_books_that_are_told_apart() {
    let mut random = Random::new(SEED);
    let [mut symbols, mut dropped] = [0; 2];
    for _ in 0..LISTS {
        let size = random.pick(&SIZES);
        let counts = Counts::random(&mut random, size);
        let m = apart_book(&mut random, |random| random_book(random, counts));
        let book = m.book();
        let program = check(&book).expect("random books pass");
        let mut run = Run::new(&m);
        for _ in 0..random.up_to(CALLS) {
            random_call(&mut random, &program, &mut run);
            assert_eq!(run.breaches(), [], "{} of {m:?}", run.text);
        }
        let declarations = run.look_at(&run.text, |moment, look| {
            symbols += look.symbols();
            let found = look
                .assertions
                .iter()
                .flat_map(|asserted| &asserted.found.symbols);
            let lines: Vec<Vec<u8>> = found
                .map(|symbol| symbol.declaration(moment.program))
                .collect();
            lines
        });
        for declaration in declarations {
            let line = String::from_utf8(declaration).expect("ASCII");
            let text = run.text.replace(&format!("{line}\n"), "");
            let breaches = run.look_at(&text, |_, look| look.breaches);
            let is_missed = |breach: &Breach| matches!(breach, Breach::NotOnce { symbol, times: 0, .. } if *symbol == line);
            assert!(breaches.iter().any(is_missed), "{line} in {}", run.text);
            dropped += 1;
        }
    }
    assert!(symbols > LISTS && dropped > LISTS, "{symbols} {dropped}");
}
