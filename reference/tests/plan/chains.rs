//! The box chains: their truth against brute force, and their books.

use crate::evaluation::follows;
use crate::round_trips::round_trip;
use leskofar_reference::book_test::{check, SCRATCH_SIZE};
use leskofar_reference::chains::{random_chain_plan, ChainPlan, LEAST_STEPS, MOST_STEPS};
use leskofar_reference::random::Random;
use leskofar_reference::script::TEXT_SIZE;
use leskofar_reference::{ask, fresh_image};

const SEED: u64 = 20_260_106;
const PLANS: usize = 600;
/// Steps that brute force is quick enough for.
const FEW_STEPS: usize = 5;

fn plans(most_steps: usize) -> impl Iterator<Item = ChainPlan> {
    let mut random = Random::new(SEED);
    (0..PLANS).map(move |_| random_chain_plan(&mut random, most_steps))
}

#[test]
fn the_truth_is_what_brute_force_finds() {
    let (mut proved, mut not_proved) = (0, 0);
    for plan in plans(FEW_STEPS).chain(plans(LEAST_STEPS)) {
        let book = plan.maker.book();
        let program = check(&book).expect("the book passes");
        for question in &plan.questions {
            let found = follows(&program, question.node as usize, question.goal as usize);
            assert_eq!(found, question.must_be_proved, "{question:?}");
            if found {
                proved += 1;
            } else {
                not_proved += 1;
            }
        }
    }
    assert!(
        proved > PLANS && not_proved > PLANS,
        "{proved} {not_proved}"
    );
}

/// What the plans are to have among them, at any length.
#[test]
fn the_plans_have_everything() {
    let (mut siblings, mut open_proved, mut by_axiom, mut longest) = (0, 0, 0, 0);
    for plan in plans(MOST_STEPS) {
        let book = plan.maker.book();
        let program = check(&book).expect("the book passes");
        longest = longest.max(program.constants.len());
        by_axiom += usize::from(!program.axioms.is_empty());
        siblings += usize::from(plan.siblings_differ());
        let is_open = |node: &usize| {
            let trace = program.node(*node).and_then(|node| node.trace_string);
            trace.is_some_and(|trace| trace.ends_with(b"any box"))
        };
        open_proved += usize::from(plan.questions.iter().any(|question| {
            question.must_be_proved && program.path(question.node as usize).iter().any(is_open)
        }));
    }
    let seen = [siblings, open_proved, by_axiom];
    assert!(seen.iter().all(|plans| *plans > PLANS / 10), "{seen:?}");
    assert!(longest >= MOST_STEPS);
}

/// Every question can be asked, and the plans can be read as text.
#[test]
fn the_books_serve() {
    for plan in plans(MOST_STEPS) {
        let book = plan.maker.book();
        for question in &plan.questions {
            let (mut scratch, mut text) = (vec![0; SCRATCH_SIZE], vec![0; TEXT_SIZE]);
            let mut image = fresh_image();
            let (node, goal) = (question.node, question.goal);
            let asked = ask(&book, &mut scratch, &mut image, node, goal, &mut text);
            assert!(asked.is_ok(), "{asked:?}");
        }
        let text = round_trip(&book);
        assert!(!text.contains("(pattern "), "patterns stand in place");
    }
}
