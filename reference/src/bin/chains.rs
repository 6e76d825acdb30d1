//! Writes made plans of box chains for the host's tests: each as a book, with
//! its questions and whether they must be proved, which is worked out in plain
//! arithmetic.
#![deny(warnings)]

use leskofar_reference::book_test::check;
use leskofar_reference::chains::{random_chain_plan, Question, MOST_STEPS};
use leskofar_reference::random::Random;
use std::env::args;
use std::fs;
use std::io;
use std::path::Path;
use std::process::ExitCode;

const HELP: &str = "\
usage: chains DIRECTORY COUNT

Writes COUNT made plans into DIRECTORY: N.book, and N.questions with a line
NODE TERM Proved|Unproved for each question. Prints how many questions there
are, how many of them must be proved, and in how many plans the same term must
be proved at a node and not at its sibling.
";
const SEED: u64 = 20_260_109;
const WRONG_USAGE: u8 = 2;

#[derive(Default)]
struct Counts {
    questions: usize,
    proved: usize,
    siblings: usize,
}

fn main() -> ExitCode {
    let arguments: Vec<String> = args().skip(1).collect();
    let [directory, count] = &arguments[..] else {
        eprint!("{HELP}");
        return ExitCode::from(WRONG_USAGE);
    };
    let Ok(count) = count.parse() else {
        eprint!("{HELP}");
        return ExitCode::from(WRONG_USAGE);
    };
    match write_plans(Path::new(directory), count) {
        Err(error) => {
            eprintln!("{directory}: {error}");
            ExitCode::from(WRONG_USAGE)
        }
        Ok(counts) => {
            let Counts {
                questions,
                proved,
                siblings,
            } = counts;
            println!("{questions} questions, {proved} to be proved, {siblings} plans with siblings that differ");
            ExitCode::SUCCESS
        }
    }
}

fn write_plans(directory: &Path, count: usize) -> io::Result<Counts> {
    let mut random = Random::new(SEED);
    let mut counts = Counts::default();
    for number in 1..=count {
        let plan = random_chain_plan(&mut random, MOST_STEPS);
        let book = plan.maker.book();
        check(&book).map_err(|refusal| io::Error::other(refusal.to_string()))?;
        counts.questions += plan.questions.len();
        counts.proved += plan.questions.iter().filter(|q| q.must_be_proved).count();
        counts.siblings += usize::from(plan.siblings_differ());
        fs::write(directory.join(format!("{number}.book")), &book)?;
        let lines: String = plan.questions.iter().map(line).collect();
        fs::write(directory.join(format!("{number}.questions")), lines)?;
    }
    Ok(counts)
}

fn line(question: &Question) -> String {
    let truth = if question.must_be_proved {
        "Proved"
    } else {
        "Unproved"
    };
    format!("{} {} {truth}\n", question.node, question.goal)
}
