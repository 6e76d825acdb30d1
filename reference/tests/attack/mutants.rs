//! The plans that are changed, and the changes.

use leskofar_reference::attack::box_plans::random_box_plan;
use leskofar_reference::attack::mutations::{mutated, WAYS};
use leskofar_reference::attack::readable::tokens;
use leskofar_reference::attack::search::{never_proved, Never};
use leskofar_reference::random::Random;
use std::io::{Result, Write};
use std::process::{Command, Stdio};

const SEED: u64 = 20_260_116;
const PLANS: usize = 1000;
/// The tool for plans is started for each of so many.
const TRIED: usize = 300;
/// At least so many goals have a counterexample.
const KNOWN: usize = 800;
/// At most so many changes leave a plan as it was: a word swapped with its
/// like.
const UNCHANGED: usize = 100;

/// They are plans whose every goal means something, and of many a
/// counterexample is known.
#[test]
fn plans_mean_something() {
    let mut random = Random::new(SEED);
    let mut known = 0;
    for _ in 0..PLANS {
        let text = random_box_plan(&mut random);
        let never = never_proved(&text).expect("a plan");
        let has_one = |(_, never): &(String, Never)| *never == Never::HasCounterexample;
        assert!(never.iter().all(has_one), "{text}");
        known += never.len();
    }
    assert!(known >= KNOWN, "{known}");
}

#[test]
fn plans_are_changed_in_every_way() {
    let mut random = Random::new(SEED);
    let (mut met, mut unchanged) = (Vec::new(), 0);
    for _ in 0..PLANS {
        let text = random_box_plan(&mut random);
        let (changed, ways) = mutated(&mut random, &text);
        unchanged += usize::from(tokens(&changed) == tokens(&text));
        met.extend(ways);
    }
    assert!(WAYS.iter().all(|way| met.contains(way)));
    assert!(unchanged <= UNCHANGED, "{unchanged}");
}

/// What the tool for plans takes means something here too, and it takes what
/// was not changed. The other way round does not hold: a few rules are left to
/// that tool.
#[test]
fn what_plan_takes_is_read() {
    let mut random = Random::new(SEED);
    for _ in 0..TRIED {
        let text = random_box_plan(&mut random);
        let (changed, ways) = mutated(&mut random, &text);
        assert!(is_taken(&text).expect("the tool runs"), "{text}");
        if is_taken(&changed).expect("the tool runs") {
            assert!(never_proved(&changed).is_some(), "{ways:?}\n{changed}");
        }
    }
}

fn is_taken(text: &str) -> Result<bool> {
    let mut tool = Command::new(env!("CARGO_BIN_EXE_plan"))
        .args(["book", "/dev/stdin"])
        .stdin(Stdio::piped())
        .stdout(Stdio::null())
        .stderr(Stdio::null())
        .spawn()?;
    if let Some(mut input) = tool.stdin.take() {
        input.write_all(text.as_bytes())?;
    }
    Ok(tool.wait()?.success())
}
