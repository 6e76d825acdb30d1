//! Texts of every sort: none makes the reader panic, and whatever it takes is
//! a book that passes.

use crate::round_trips::round_trip;
use crate::samples::samples;
use leskofar_reference::plan::{check_book, read, write, Options, Plan, PlanError};
use leskofar_reference::random::{Random, AT_TIMES};
use leskofar_reference::random_books::{random_book, Counts};

const SEED: u64 = 20_260_107;
const TEXTS: usize = 20_000;
const CHANGES_OF_EACH: usize = 1_000;
const LENGTH: usize = 120;
/// The most changes to one text.
const CHANGES: usize = 3;
/// Far more than a stack would hold.
const DEEP: usize = 200_000;
const BOOKS: usize = 300;
const BOOK_SIZE: usize = 4;

/// Reads a text; an error's place lies in it, or just behind it.
fn read_text(text: &[u8], options: Options) -> Result<Plan, PlanError> {
    read(text, options).inspect_err(|error| {
        let lines: Vec<&[u8]> = text.split(|byte| *byte == b'\n').collect();
        let line = lines.get(error.at.line - 1).expect("the line is there");
        assert!((1..=line.len() + 1).contains(&error.at.column), "{error}");
        assert!(!error.expected.is_empty() && !error.found.is_empty());
    })
}

/// Reads a text with and without the rules of names and sorts. With them it
/// is taken if they have no complaint, and the goals are of the right sort.
fn try_text(text: &[u8]) -> Result<(), PlanError> {
    let plan = read_text(text, Options::RAW)?;
    let book = plan.maker.book();
    let complaints = check_book(&book).expect("a plan's book passes");
    match read_text(text, Options::default()) {
        Ok(plan) => assert!(complaints.is_empty() && plan.warnings.is_empty()),
        Err(error) => {
            assert_eq!(plan.warnings.first(), Some(&error));
            assert!(!complaints.is_empty() || error.expected.ends_with("as a goal"));
        }
    }
    round_trip(&book);
    Ok(())
}

/// How many of the texts are taken.
fn taken(texts: impl Iterator<Item = Vec<u8>>) -> usize {
    texts.filter(|text| try_text(text).is_ok()).count()
}

#[test]
fn bytes() {
    let mut random = Random::new(SEED);
    let bytes = (0..TEXTS).map(|_| {
        let length = random.up_to(LENGTH);
        random.bytes(length)
    });
    assert!(taken(bytes) < TEXTS);
}

/// Words of the form in random order, with parentheses that mostly close.
#[test]
fn words() {
    const WORDS: [&str; 44] = [
        "(",
        "(",
        "(",
        ")",
        ")",
        ")",
        "type",
        "constant",
        "function",
        "axiom",
        "pattern",
        "term",
        "node",
        "goal",
        "letters",
        "lists",
        ":name",
        ":explains",
        ":explained-by",
        ":trace",
        ":pattern",
        "Int",
        "Bool",
        "root",
        "true",
        "%tag",
        "ite",
        "let",
        "forall",
        "exists",
        "!",
        "literal",
        "builtin",
        "and",
        "<",
        "x",
        "y",
        "f",
        "n",
        "|x y|",
        "\"s\"",
        "7",
        "-7",
        "\n",
    ];
    const ITEMS: [&str; 8] = [
        "(type T)",
        "(constant x Int)",
        "(constant y T)",
        "(function f (Int) T :explained-by (a))",
        "(axiom a (forall ((x Int)) (! (f x) :pattern ((f x)))) :explains (f))",
        "(node n root (< x 7))",
        "(term t (ite true 1 x))",
        "(pattern p (t t))",
    ];
    let mut random = Random::new(SEED);
    let texts = (0..TEXTS).map(|_| {
        let mut text = String::new();
        for _ in 0..random.up_to(LENGTH / 4) {
            let is_item = random.one_in(AT_TIMES);
            text += if is_item {
                random.pick(&ITEMS)
            } else {
                random.pick(&WORDS)
            };
            text.push(' ');
        }
        text.into_bytes()
    });
    assert!(taken(texts) > 0);
}

#[test]
fn every_prefix_of_the_samples() {
    for (_, text) in samples() {
        let prefixes = (0..=text.len()).map(|length| text[..length].to_vec());
        assert!(taken(prefixes) > 1);
    }
}

/// Bytes changed, left out, put in twice, or cut out and put elsewhere.
fn changed(random: &mut Random, text: &[u8]) -> Vec<u8> {
    let mut text = text.to_vec();
    for _ in 0..=random.below(CHANGES) {
        let [a, b, c] = [(); 3].map(|()| random.up_to(text.len()));
        let (start, end) = (a.min(b), a.max(b).min(a.min(b) + LENGTH));
        match random.below(4) {
            0 if c < text.len() => text[c] = random.number() as u8,
            1 => drop(text.drain(start..end)),
            2 => {
                let part = text[start..end].to_vec();
                text.splice(c..c, part);
            }
            _ => {
                let part: Vec<u8> = text.drain(start..end).collect();
                let at = c.min(text.len());
                text.splice(at..at, part);
            }
        }
    }
    text
}

#[test]
fn changed_samples() {
    let mut random = Random::new(SEED);
    for (_, text) in samples() {
        let texts = (0..CHANGES_OF_EACH).map(|_| changed(&mut random, &text));
        assert!((1..CHANGES_OF_EACH).contains(&taken(texts)));
    }
}

/// Lines of a book's text left out, doubled or in another order: many of them
/// still are plans, with names used twice, too early or not at all.
#[test]
fn changed_lines_of_random_books() {
    let mut random = Random::new(SEED);
    let mut good = 0;
    for _ in 0..BOOKS {
        let counts = Counts::random(&mut random, BOOK_SIZE);
        let text = write(&random_book(&mut random, counts).book()).expect("the book passes");
        let mut lines: Vec<&str> = text.lines().collect();
        for _ in 0..=random.below(CHANGES) {
            let [from, to] = [(); 2].map(|()| random.below(lines.len().max(1)));
            if !lines.is_empty() {
                let line = lines.remove(from);
                lines.insert(to.min(lines.len()), line);
            }
        }
        good += usize::from(try_text(lines.join("\n").as_bytes()).is_ok());
    }
    assert!((1..BOOKS).contains(&good));
}

#[test]
fn deep_texts() {
    for part in [
        "(",
        "(term t ",
        "(not ",
        "(let ((v ",
        "(forall () ",
        "(forall () (! true :pattern (",
    ] {
        assert!(try_text(part.repeat(DEEP).as_bytes()).is_err());
        let text = format!("(term t {}", part.repeat(DEEP));
        assert!(try_text(text.as_bytes()).is_err());
    }
}
