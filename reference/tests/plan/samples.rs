//! The sample plans.

use crate::evaluation::follows;
use crate::round_trips::round_trip;
use leskofar_reference::book_test::check;
use leskofar_reference::plan::{read, Goal, Options, Plan};
use std::collections::BTreeSet;
use std::fs;
use std::path::PathBuf;

/// Each sample's goals with what its comments say: proved or not.
const GOALS: [(&str, &[(&str, bool)]); 9] = [
    (
        "distance_axiom",
        &[("travels_at_most_8", true), ("travels_at_most_7", false)],
    ),
    (
        "limit_not_proved",
        &[
            ("travels_at_most_8", false),
            ("travels_at_most_8_up_to_step_2", true),
            ("travels_at_most_8_known_too_early", false),
        ],
    ),
    ("limit_proved", &[("travels_at_most_6", true)]),
    (
        "open_step",
        &[
            ("travels_at_most_11", true),
            ("travels_at_most_10", false),
            ("travels_at_most_11_by_let", true),
        ],
    ),
    (
        "patterns",
        &[
            ("travels_at_most_5", true),
            ("straight_is_at_most_5", true),
            ("travels_at_most_4", false),
        ],
    ),
    (
        "shades",
        &[
            ("travels_at_most_10", true),
            ("travels_at_most_9", false),
            ("red_is_not_green", true),
            ("red_is_not_green_known_too_early", false),
        ],
    ),
    (
        "siblings",
        &[
            ("near_travels_at_most_3", true),
            ("far_travels_at_most_3", false),
            ("near_again_travels_at_most_3", true),
        ],
    ),
    (
        "yarns",
        &[
            ("travels_at_most_6", true),
            ("travels_at_most_6_known_too_early", false),
        ],
    ),
    (
        "zero_point",
        &[
            ("step_2_brings_box_minus_3", true),
            ("travels_at_most_7", true),
            ("travels_at_most_6", false),
            ("ends_at_least_three_to_the_left", true),
        ],
    ),
];
/// How a plan's file ends; lines for `work` stand beside them.
const PLAN: &str = "plan";
/// Brute force can't choose functions.
const NOT_BY_BRUTE_FORCE: [&str; 2] = ["patterns", "shades"];

fn directory() -> PathBuf {
    PathBuf::from(env!("CARGO_MANIFEST_DIR")).join("../samples")
}

pub fn path(name: &str) -> PathBuf {
    directory().join(name).with_extension(PLAN)
}

/// The samples' names and texts.
pub fn samples() -> Vec<(&'static str, Vec<u8>)> {
    let text = |(name, _)| (name, fs::read(path(name)).expect("the sample is there"));
    GOALS.map(text).to_vec()
}

fn plan(text: &[u8]) -> Plan {
    read(text, Options::default()).unwrap_or_else(|error| panic!("{error}"))
}

#[test]
fn all_samples_are_listed() {
    let mut found: Vec<PathBuf> = fs::read_dir(directory())
        .expect("the samples are there")
        .map(|entry| entry.expect("an entry").path())
        .filter(|path| path.extension().is_some_and(|kind| kind == PLAN))
        .collect();
    found.sort();
    assert_eq!(found, GOALS.map(|(name, _)| path(name)));
}

#[test]
fn samples_have_their_goals() {
    for ((_, text), (_, goals)) in samples().iter().zip(GOALS) {
        let plan = plan(text);
        let names: Vec<&str> = plan.goals.iter().map(|goal| goal.name.as_str()).collect();
        let expected: Vec<&str> = goals.iter().map(|(name, _)| *name).collect();
        assert_eq!(names, expected);
    }
}

#[test]
fn what_the_comments_say_is_true() {
    for ((name, text), (_, goals)) in samples().iter().zip(GOALS) {
        if NOT_BY_BRUTE_FORCE.contains(name) {
            continue;
        }
        let plan = plan(text);
        let book = plan.maker.book();
        let program = check(&book).expect("the book passes");
        for (goal, (goal_name, is_proved)) in plan.goals.iter().zip(goals) {
            let found = follows(&program, goal.node as usize, goal.term as usize);
            assert_eq!(found, *is_proved, "{name}: {goal_name}");
        }
    }
}

/// A sample's terms stand in the order of its text, so none but the goals'
/// need names when its book is written again; nor do symbols need others.
#[test]
fn round_trips() {
    for (_, text) in samples() {
        let plan = plan(&text);
        let goals: BTreeSet<u32> = plan.goals.iter().map(|goal| goal.term).collect();
        let text = round_trip(&plan.maker.book());
        assert_eq!(text.matches("(term ").count(), goals.len(), "{text}");
        assert!(!text.contains(":name"), "{text}");
    }
}

/// Long terms are broken part below part.
#[test]
fn layout() {
    let patterns = fs::read(path("patterns")).expect("the sample is there");
    let text = round_trip(&plan(&patterns).maker.book());
    let expected = "
(axiom a0
  (forall ((a Int) (b Int)) (! (= (distance a b) (distance b a)) :pattern ((distance a b))))
  :explains (distance))
(axiom a1
  (forall ((a Int) (b Int) (c Int))
    (!
      (<= (distance a c) (+ (distance a b) (distance b c)))
      :pattern ((distance a b) (distance b c))))
  :explains (distance))
(node n1 root
  (and (= (distance 1 3) 2) (= (distance 3 6) 3))
  :trace \"measured: 1 to 3 is 2, 3 to 6 is 3\")
";
    assert!(text.contains(expected), "{text}");
}

/// The worked plan of docs/PLAN.md, and the goals' numbers that it names.
#[test]
fn the_worked_plan() {
    let page = PathBuf::from(env!("CARGO_MANIFEST_DIR")).join("../docs/PLAN.md");
    let page = fs::read_to_string(page).expect("the page is there");
    let block = page.split("```").nth(1).expect("the first block");
    let plan = plan(block.as_bytes());
    assert_eq!(plan.goals.len(), 2);
    for goal in &plan.goals {
        let line = format!("`{} {} {}`", goal.node, goal.term, goal.name);
        assert!(page.contains(&line), "{line}");
    }
    let book = plan.maker.book();
    let program = check(&book).expect("the book passes");
    let truth = |goal: &Goal| follows(&program, goal.node as usize, goal.term as usize);
    let truths: Vec<bool> = plan.goals.iter().map(truth).collect();
    assert_eq!(truths, [true, false]);
}
