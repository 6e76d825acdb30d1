//! Lists of calls on books with sane names, whose every line the strict reader
//! of SMT-LIB 2.6 reads.

use crate::calls::{Call, Measure, OK};
use crate::clashing_books::clashing_book;
use crate::lists::on_book;
use crate::sane::is_sane;
use crate::seen::{Seen, RESULTS};
use crate::sessions::random_list;
use crate::shapes::SHAPES;
use crate::tally::Tally;
use leskofar_reference::book_test::check;
use leskofar_reference::chains::{random_chain_plan, MOST_STEPS};
use leskofar_reference::fresh_image;
use leskofar_reference::maker::{sample, Maker, Sample};
use leskofar_reference::plan::{read, Options};
use leskofar_reference::random::Random;
use leskofar_reference::sane_books::sane_book;
use leskofar_reference::session::UNSAT;
use std::fs;

const SAMPLES: &str = concat!(env!("CARGO_MANIFEST_DIR"), "/../samples");
/// How a plan's file ends; lines for `work` stand beside them.
const PLAN: &str = "plan";
const SEED: u64 = 0x7374_7269;
const LISTS: usize = 4_000;
const CLASHING_LISTS: usize = 2_000;
const CHAINS: usize = 200;
/// What a book with sane names cannot have.
const NEVER: [&str; 2] = ["empty operator name", "empty pattern"];

/// Asks questions, each a node and a goal, of which every other one is proved.
pub fn ask_all(
    m: &Maker,
    questions: impl Iterator<Item = [u32; 2]>,
    measure: &mut Measure,
    seen: &mut Seen,
) -> Result<(), String> {
    let book = m.book();
    on_book(m, |list| {
        for (number, [node, goal]) in questions.enumerate() {
            let ask = Call::Ask { node, goal };
            let mut calls = vec![ask, Call::reply(OK, UNSAT)];
            if number % 2 == 1 {
                calls.truncate(1);
                calls.extend([Call::reply(OK, b"sat"), Call::model(b"sat", None)]);
            }
            for call in calls {
                let (text, reason) = measure.lengths(&call, &book, list.image());
                let left = list.step(&call, text, reason, seen)?;
                if !left.accepted() {
                    return Err(format!("{:?} of {call:?}", left.answer));
                }
            }
        }
        Ok(())
    })
}

pub fn checked_as_sane(m: &Maker) -> Result<(), String> {
    let book = m.book();
    let program = check(&book).map_err(|refusal| format!("refused {refusal}"))?;
    if is_sane(&program) {
        Ok(())
    } else {
        Err(format!("names are not sane, of {book:?}"))
    }
}

fn checked_as_clashing(m: &Maker) -> Result<(), String> {
    match checked_as_sane(m) {
        Ok(()) => Err(format!("no names clash, of {m:?}")),
        Err(_) => Ok(()),
    }
}

/// Random lists of calls on books of a sort, each looked at first.
fn random_lists(
    lists: usize,
    book: fn(&mut Random) -> Maker,
    checked: fn(&Maker) -> Result<(), String>,
) -> Result<Seen, String> {
    let mut seen = Seen::default();
    let mut measure = Measure::new();
    let mut random = Random::new(SEED);
    let mut other = fresh_image().to_vec();
    for _ in 0..lists {
        let m = book(&mut random);
        checked(&m)?;
        other = random_list(&mut random, &m, &other, &mut measure, &mut seen)?;
    }
    Ok(seen)
}

pub fn run(tally: &mut Tally) {
    let chains = tally.share(CHAINS);
    tally.group("strict, the sample plans and chains", || {
        let mut seen = Seen::default();
        let mut measure = Measure::new();
        let Sample { maker, goal } = sample();
        let nodes = 0..=maker.contexts.len() as u32;
        ask_all(
            &maker,
            nodes.map(|node| [node, goal]),
            &mut measure,
            &mut seen,
        )?;
        for file in fs::read_dir(SAMPLES).map_err(|error| error.to_string())? {
            let path = file.map_err(|error| error.to_string())?.path();
            if path.extension().is_none_or(|kind| kind != PLAN) {
                continue;
            }
            let text = fs::read(&path).map_err(|error| error.to_string())?;
            let plan = read(&text, Options::default())
                .map_err(|error| format!("{}: {error}", path.display()))?;
            checked_as_sane(&plan.maker)?;
            let questions = plan.goals.iter().map(|goal| [goal.node, goal.term]);
            ask_all(&plan.maker, questions, &mut measure, &mut seen)?;
        }
        let mut random = Random::new(SEED);
        for _ in 0..chains {
            let plan = random_chain_plan(&mut random, MOST_STEPS);
            checked_as_sane(&plan.maker)?;
            let questions = plan.questions.iter().map(|asked| [asked.node, asked.goal]);
            ask_all(&plan.maker, questions, &mut measure, &mut seen)?;
        }
        let [read, looked] = [seen.read_strictly()?, seen.looked.said()?];
        Ok(format!("{read}, {looked}"))
    });
    let lists = tally.share(LISTS);
    tally.group("strict, random books with sane names", || {
        let seen = random_lists(lists, sane_book, checked_as_sane)?;
        let shapes: Vec<&str> = SHAPES
            .into_iter()
            .filter(|shape| !NEVER.contains(shape))
            .collect();
        seen.shapes.all_of(&shapes)?;
        let results = seen.results.all_of(&RESULTS)?;
        let [read, looked] = [seen.read_strictly()?, seen.looked.said()?];
        Ok(format!(
            "{lists} lists, {read}, {looked}, accepted: {results}"
        ))
    });
    let lists = tally.share(CLASHING_LISTS);
    tally.group(
        "strict, random books whose names clash, by the grammar",
        || {
            let seen = random_lists(lists, clashing_book, checked_as_clashing)?;
            let read = seen.read_strictly()?;
            Ok(format!("{lists} lists, {read}"))
        },
    );
}
