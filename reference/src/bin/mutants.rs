//! Writes plans that were changed at random, for the host's tests: each with
//! the goals that must never be proved, which is worked out from the text by
//! itself.
#![deny(warnings)]

use leskofar_reference::attack::box_plans::random_box_plan;
use leskofar_reference::attack::mutations::mutated;
use leskofar_reference::attack::search::{never_proved, Never};
use leskofar_reference::random::{Random, RARELY};
use std::env::args;
use std::fs;
use std::io;
use std::path::Path;
use std::process::ExitCode;

const HELP: &str = "\
usage: mutants DIRECTORY COUNT SEED

Writes COUNT plans into DIRECTORY, most of them changed at random: N.plan;
N.ways, the changes; and N.never, a line `counterexample NAME` or `meaningless
NAME` for each goal that must never be proved, or the line `unreadable` where
the text is no plan, so that none of its goals may be.
";
const WRONG_USAGE: u8 = 2;

fn main() -> ExitCode {
    let arguments: Vec<String> = args().skip(1).collect();
    let parsed = match &arguments[..] {
        [directory, count, seed] => match (count.parse(), seed.parse()) {
            (Ok(count), Ok(seed)) => Some((directory, count, seed)),
            _ => None,
        },
        _ => None,
    };
    let Some((directory, count, seed)) = parsed else {
        eprint!("{HELP}");
        return ExitCode::from(WRONG_USAGE);
    };
    match write_plans(Path::new(directory), count, seed) {
        Ok(()) => ExitCode::SUCCESS,
        Err(error) => {
            eprintln!("{directory}: {error}");
            ExitCode::from(WRONG_USAGE)
        }
    }
}

fn write_plans(directory: &Path, count: usize, seed: u64) -> io::Result<()> {
    let mut random = Random::new(seed);
    for number in 1..=count {
        let text = random_box_plan(&mut random);
        // Those that are left alone show that plans and truth fit.
        let (text, ways) = match random.one_in(RARELY) {
            true => (text, Vec::new()),
            false => mutated(&mut random, &text),
        };
        let ways: Vec<String> = ways.iter().map(|way| format!("{way:?}")).collect();
        let put =
            |end: &str, text: &str| fs::write(directory.join(format!("{number}.{end}")), text);
        put("plan", &text)?;
        put("ways", &format!("{}\n", ways.join("+")))?;
        put("never", &lines(&text))?;
    }
    Ok(())
}

fn lines(text: &str) -> String {
    let Some(goals) = never_proved(text) else {
        return "unreadable\n".into();
    };
    let line = |(name, never): &(String, Never)| match never {
        Never::HasCounterexample => format!("counterexample {name}\n"),
        Never::HasNoMeaning => format!("meaningless {name}\n"),
    };
    goals.iter().map(line).collect()
}
