//! What the reference sends for plans and chains is read, line by line, and
//! so are the prints of its goals; with a line left out or damaged it is not.

use leskofar_reference::book_test::SCRATCH_SIZE;
use leskofar_reference::chains::{random_chain_plan, MOST_STEPS};
use leskofar_reference::plan::{read, Options};
use leskofar_reference::random::Random;
use leskofar_reference::smtlib::Reader;
use leskofar_reference::{ask, fresh_image, print, reply, Replied};
use std::fs;

const SAMPLES: &str = concat!(env!("CARGO_MANIFEST_DIR"), "/../samples");
/// How a plan's file ends; lines for `work` stand beside them.
const PLAN: &str = "plan";
const SEED: u64 = 20_260_201;
const CHAINS: usize = 200;
const TEXT_SIZE: usize = 1 << 16;
const LAYOUTS: [(bool, u64); 3] = [(false, 0), (true, 0), (true, 3)];
/// A plan with all that has another text by SMT-LIB than in the Dafny files.
const NEGATIVE: &str = "(type T) (constant t T)
    (constant x Int) (constant y Int)
    (function f (Int Int) Int)
    (node left root (and (= t t) (< x -1)))
    (node far left (= (f x -9223372036854775808) -2))
    (goal bound far (let ((y -3)) (< (f x y) -4)))
    (goal ruled far (forall ((y Int)) (! (< (f -5 y) x) :pattern ((f -5 y) y))))";

/// A plan with names that need bars, that have them and that need none.
const YARNS: &str = "(type |red 40|) (type T :name \"|as is|\") (type Shade)
    (constant |dark thread| |red 40|) (constant c Int :name \"let\") (constant |40| T)
    (function |dye of| (|red 40| T Shade) Int) (function f () Shade :name \"||\")
    (node start root (< (|dye of| (literal \"dark red\" |red 40|) |40| f) c))
    (goal bound start (forall ((|dark thread| |red 40|) (c Int))
        (! (let ((c (|dye of| |dark thread| |40| f))) (< c 1))
           :pattern ((|dye of| |dark thread| |40| f)))))";

/// A book and questions on it, each a node and a goal.
struct Questions {
    book: Vec<u8>,
    asked: Vec<[u32; 2]>,
}

impl Questions {
    fn of_plan(text: &[u8]) -> Questions {
        let plan = read(text, Options::default()).expect("a good plan");
        let asked = plan.goals.iter().map(|goal| [goal.node, goal.term]);
        Questions {
            book: plan.maker.book(),
            asked: asked.collect(),
        }
    }

    /// What is sent, with each question proved.
    fn sent(&self, mut see: impl FnMut(&[u8], Option<u32>)) {
        let mut image = fresh_image();
        let (mut scratch, mut text) = ([0; SCRATCH_SIZE], vec![0; TEXT_SIZE]);
        for [node, goal] in &self.asked {
            let length = ask(
                &self.book,
                &mut scratch,
                &mut image,
                *node,
                *goal,
                &mut text,
            );
            see(&text[..length.expect("accepted")], Some(*goal));
            let proved = reply(
                &self.book,
                &mut scratch,
                &mut image,
                false,
                b"unsat",
                &mut text,
                &mut [],
            );
            let Ok(Replied::Proved { text: length }) = proved else {
                panic!("{proved:?}");
            };
            see(&text[..length], None);
        }
    }

    /// All of it as lines.
    fn lines(&self) -> Vec<String> {
        let mut lines = Vec::new();
        self.sent(|text, _| {
            let text = std::str::from_utf8(text).expect("ASCII");
            lines.extend(text.lines().map(String::from));
        });
        lines
    }

    fn printed(&self, goal: u32, newlines: bool, indent: u64) -> Vec<u8> {
        let (mut scratch, mut text) = ([0; SCRATCH_SIZE], vec![0; TEXT_SIZE]);
        let length = print(
            &self.book,
            &mut scratch,
            goal,
            0,
            newlines,
            indent,
            &mut text,
        );
        text.truncate(length.expect("accepted"));
        text
    }

    /// Reads every line, and the prints of a goal while it is asked.
    fn assert_read(&self) {
        let mut reader = Reader::default();
        self.sent(|text, goal| {
            for line in text.split_inclusive(|byte| *byte == b'\n') {
                let read = reader.read(line);
                assert_eq!(read, Ok(1), "{}", line.escape_ascii());
            }
            let Some(goal) = goal else {
                return;
            };
            for (newlines, indent) in LAYOUTS {
                let printed = self.printed(goal, newlines, indent);
                assert_eq!(reader.read_term(&printed), Ok(()));
                let asserted = [b"(assert ", &printed[..], b")"].concat();
                assert_eq!(reader.read(&asserted), Ok(1));
            }
        });
    }
}

fn read_all(lines: &[String]) -> Option<usize> {
    Reader::default().read(lines.join("\n").as_bytes()).ok()
}

/// Each declared symbol is a name of the plan without its bars.
#[test]
fn declared_symbols_are_the_names() {
    let mut reader = Reader::default();
    Questions::of_plan(YARNS.as_bytes()).sent(|text, _| {
        reader.read(text).expect("a text that is read");
    });
    let names = |names: &[&str]| -> Vec<Vec<u8>> { names.iter().map(|n| (*n).into()).collect() };
    assert_eq!(reader.sorts, names(&["red 40", "as is", "Shade"]));
    let functions = ["dye of", "dark red:red 40", "40", "", "let"];
    assert_eq!(reader.functions, names(&functions));
}

#[test]
fn plans_and_chains_are_read() {
    for plan in [NEGATIVE, YARNS] {
        Questions::of_plan(plan.as_bytes()).assert_read();
    }
    let samples = fs::read_dir(SAMPLES).expect("the samples");
    for sample in samples {
        let path = sample.expect("a sample").path();
        if path.extension().is_some_and(|kind| kind == PLAN) {
            Questions::of_plan(&fs::read(path).expect("a plan")).assert_read();
        }
    }
    let mut random = Random::new(SEED);
    for _ in 0..CHAINS {
        let plan = random_chain_plan(&mut random, MOST_STEPS);
        let asked = plan.questions.iter();
        let questions = Questions {
            book: plan.maker.book(),
            asked: asked.map(|asked| [asked.node, asked.goal]).collect(),
        };
        questions.assert_read();
    }
}

/// Each fault of a line, wherever it is one.
#[test]
fn damaged_lines_are_refused() {
    let lines = Questions::of_plan(NEGATIVE.as_bytes()).lines();
    assert_eq!(read_all(&lines), Some(lines.len()));
    let faults: [(&str, &str); 10] = [
        ("(push 1)", "(push)"),
        ("(pop 1)", "(pop)"),
        ("(- 1)", "-1"),
        ("(- 2)", "(2 -)"),
        ("(- 3)", "(-3)"),
        ("(- 4)", "- 4"),
        ("(- 5)", "(- 05)"),
        ("(- 9223372036854775808)", "-9223372036854775808"),
        (" 0)", ")"),
        ("Int", "int"),
    ];
    for (good, bad) in faults {
        let mut met = 0;
        for at in 0..lines.len() {
            if lines[at].contains(good) {
                let mut damaged = lines.clone();
                damaged[at] = lines[at].replace(good, bad);
                assert_eq!(read_all(&damaged), None, "{}", damaged[at]);
                met += 1;
            }
        }
        assert!(met > 0, "{good}");
    }
}

/// A parenthesis left out or behind, a declaration left out or sent twice.
#[test]
fn a_changed_script_is_refused() {
    let lines = Questions::of_plan(NEGATIVE.as_bytes()).lines();
    for at in 0..lines.len() {
        let line = &lines[at];
        for other in [&line[1..], &line[..line.len() - 1], &format!("{line})")] {
            let mut changed = lines.clone();
            changed[at] = other.to_string();
            assert_eq!(read_all(&changed), None, "{other}");
        }
        if line.starts_with("(declare-") {
            let mut without = lines.clone();
            without.remove(at);
            assert_eq!(read_all(&without), None, "{line}");
            let mut twice = lines.clone();
            twice.insert(at, line.clone());
            assert_eq!(read_all(&twice), None, "{line}");
        }
    }
}
