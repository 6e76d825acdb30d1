//! Speed of an audit as a ratio to the reference, and to asks of the library
//! for the same questions, each of a fresh session, all measured in this run.

use crate::audit_foreign::{ForeignWriter, Manners};
use crate::audit_library::{audit, Audited};
use crate::audit_wide::{alike, equal_level, wide, Wide, EQUAL_LINES};
use crate::library::book_test;
use crate::nodes_trees::{chains, planted};
use crate::session_library::{ask, Buffers};
use crate::timing::{fastest, percent, ratio};
use leskofar_reference::audit_samples::{bytes, Question};
use leskofar_reference::book_test::{MOST_DEPTH, SCRATCH_SIZE};
use leskofar_reference::fresh_image;
use leskofar_reference::random::Random;
use leskofar_reference::stack::{expected_levels, Level};
use std::hint::black_box;

const SEED: u64 = 1;
/// Depths of the nodes that are asked at.
const DEPTHS: [usize; 2] = [10, MOST_DEPTH];
const QUESTIONS: [usize; 3] = [1, 10, 100];
/// More than any text here has.
const ROOM: usize = 1 << 16;

/// A book, its questions, and what is live at each.
struct Job {
    book: Vec<u8>,
    questions: Vec<Question>,
    stacks: Vec<Vec<Level>>,
}

impl Job {
    fn new(book: Vec<u8>, questions: Vec<Question>) -> Job {
        let levels = |[node, goal]: &Question| expected_levels(&book, *node, Some(*goal));
        let stacks: Option<Vec<Vec<Level>>> = questions.iter().map(levels).collect();
        Job {
            stacks: stacks.expect("no axiom is missing"),
            book,
            questions,
        }
    }

    /// Goals of their own at the end of a chain.
    fn chain(depth: usize, questions: usize) -> Job {
        let mut m = planted(&chains(depth, depth), &[]);
        let goals: Vec<u32> = (0..questions as i64).map(|k| m.integer(k)).collect();
        let questions = goals.iter().map(|goal| [depth as u32, *goal]).collect();
        Job::new(m.book(), questions)
    }

    /// A goal at the root that declares much.
    fn wide(Wide { maker, goal }: Wide) -> Job {
        Job::new(maker.book(), vec![[0, goal]])
    }

    /// Asks each question, each of a fresh session.
    fn ask_each(&self, scratch: &mut [u8], text: &mut [u8]) {
        for [node, goal] in &self.questions {
            let mut buffers = Buffers {
                scratch,
                image: &mut fresh_image(),
                text,
                reason: &mut [],
            };
            let asked = ask(&self.book, &mut buffers, *node, *goal);
            assert_eq!(black_box(asked).refusal, 0, "node {node}, goal {goal}");
        }
    }

    /// Prints a row of the table: a script for these levels.
    fn row(&self, name: &str, manners: Manners, stacks: &[Vec<Level>], answer: Audited) {
        let script = ForeignWriter::script(&mut Random::new(SEED), manners, stacks);
        let questions = bytes(&self.questions);
        let book = &self.book;
        let mut text = vec![0; ROOM];
        let [mut first, mut second, mut third, mut fourth] = [[0; SCRATCH_SIZE]; 4];
        assert_eq!(
            audit(book, &mut first, &questions, &script),
            answer,
            "{name}"
        );
        let [ours, theirs, asked, book_tested] = fastest([
            &mut || {
                black_box(audit(black_box(book), &mut first, &questions, &script));
            },
            &mut || {
                let book = black_box(book);
                let audited = leskofar_reference::audit(book, &mut second, &questions, &script);
                let _ = black_box(audited);
            },
            &mut || self.ask_each(&mut third, &mut text),
            &mut || {
                black_box(book_test(black_box(book), &mut fourth));
            },
        ]);
        println!(
            "| {name} | {} | {} | {:.1} | {:.3} | {:.2} | {:.0} |",
            self.questions.len(),
            script.len(),
            ours.as_secs_f64() * 1e6,
            ratio(ours, theirs),
            ratio(ours, asked),
            percent(book_tested, ours),
        );
    }

    /// The same of the levels as they are, which is accepted.
    fn accepted(&self, name: &str, shuffles: bool) {
        let manners = Manners {
            shuffles,
            ..Manners::default()
        };
        let order = if shuffles { "shuffled" } else { "in our order" };
        let name = format!("{name}, {order}");
        self.row(&name, manners, &self.stacks, Audited::default());
    }
}

/// One level of many lines, in every order, and one of equal lines.
fn bench_levels() {
    let job = Job::wide(wide());
    let name = format!("a level of {} lines", job.stacks[0][1].len());
    job.accepted(&name, false);
    job.accepted(&name, true);
    let mut reversed = job.stacks.clone();
    reversed[0][1].reverse();
    let name = format!("{name}, reversed");
    job.row(&name, Manners::default(), &reversed, Audited::default());
    let job = Job::wide(alike([1, 1]));
    let mut equal = job.stacks.clone();
    equal[0][1] = equal_level();
    let differs = Audited {
        refusal: 0,
        differs: 1,
    };
    let name = format!("a level of {EQUAL_LINES} equal lines, where ours has 2");
    job.row(&name, Manners::default(), &equal, differs);
}

pub fn run() {
    println!();
    println!(
        "| script | questions | bytes of the script | µs | ratio to reference \
         | ratio to asks of fresh sessions | book test, % |"
    );
    println!("|---|---|---|---|---|---|---|");
    for depth in DEPTHS {
        for questions in QUESTIONS {
            let job = Job::chain(depth, questions);
            for shuffles in [false, true] {
                job.accepted(&format!("{depth} deep"), shuffles);
            }
        }
    }
    bench_levels();
}
