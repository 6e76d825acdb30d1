//! The rules of names and sorts against a second, naive form of them, on
//! random books and on books of box chains with a number damaged. Where the
//! rules of names are kept, no two records print alike.

use crate::naive_rules::{wrong_names, wrong_sorts, OPERATORS};
use leskofar_reference::book::{kind, Section};
use leskofar_reference::book_test::check;
use leskofar_reference::chains::{random_chain_plan, MOST_STEPS};
use leskofar_reference::maker::Maker;
use leskofar_reference::name_faults::{may_be_declared, may_be_in_literal, ways_of};
use leskofar_reference::plan::{check_book, refused_names, Complaint};
use leskofar_reference::random::{Random, AT_TIMES, OFTEN, RARELY};
use leskofar_reference::random_books::{self, any_random_book, random_book};
use leskofar_reference::refusal::BAD_NAME;
use leskofar_reference::told_apart::prints_apart;

const SEED: u64 = 20_260_109;
const BOOKS: usize = 6_000;
const CHAINS: usize = 3_000;
/// The most damaged numbers of a book.
const FAULTS: usize = 3;
const LARGEST: usize = 12;
const SIZES: [usize; 4] = [1, 2, 4, LARGEST];
/// Each verdict is to be met in at least this share of the books.
const SHARE: usize = 10;

/// Names of every sort, right and wrong, and such that clash.
const NAMES: [&str; 33] = [
    "x", "|x|", "y", "f", "|a b|", "a b", "", "||", "-5", "|-5|", "5", "05", "1.5", "|1.5|", "#xA",
    "#b2", "|#b2|", "let", "|exit|", "_", "and", "|not|", "true", "ite", "Int", "Bool", "a:b",
    "|x:int|", "|r:x|", "r", "|", "a\\", "%tag",
];

/// Operators that no signature is known of.
const UNKNOWN_OPERATORS: [&str; 4] = ["select", "bv2nat", "10", "1.5"];

/// How often each verdict was met.
#[derive(Debug, Default)]
struct Verdicts {
    names: Counts,
    sorts: Counts,
}

#[derive(Debug, Default)]
struct Counts {
    right: usize,
    wrong: usize,
}

impl Counts {
    fn note(&mut self, is_right: bool) {
        self.right += usize::from(is_right);
        self.wrong += usize::from(!is_right);
    }
}

impl Verdicts {
    fn compare(&mut self, book: &[u8]) {
        let program = check(book).expect("the book passes");
        let complaints = check_book(book).expect("the book passes");
        let (names, sorts): (Vec<&Complaint>, Vec<&Complaint>) = complaints
            .iter()
            .partition(|complaint| complaint.is_of_names());
        assert_eq!(records(&names), wrong_names(&program), "{program:?}");
        assert_eq!(records(&sorts), wrong_sorts(&program), "{program:?}");
        assert!(!names.is_empty() || prints_apart(&program), "{program:?}");
        self.names.note(names.is_empty());
        self.sorts.note(sorts.is_empty());
    }

    fn assert_met(&self, books: usize) {
        for Counts { right, wrong } in [&self.names, &self.sorts] {
            assert!(*right.min(wrong) >= books / SHARE, "{self:?}");
        }
    }
}

fn records(complaints: &[&Complaint]) -> Vec<String> {
    let record = |complaint: &&Complaint| complaint.record.to_string();
    complaints.iter().map(record).collect()
}

/// Gives the records names of their own, and now and then one of `NAMES` that
/// they may have.
fn rename(random: &mut Random, m: &mut Maker, rate: usize) {
    let operators = [&OPERATORS[..], &UNKNOWN_OPERATORS].concat();
    let first = random.below(operators.len());
    let that = |is_fit: fn(&str) -> bool| -> Vec<&str> {
        NAMES.into_iter().filter(|name| is_fit(name)).collect()
    };
    let declared = that(may_be_declared);
    let in_literals = that(may_be_in_literal);
    // A literal may be of any type here.
    let types = that(|name| may_be_declared(name) && may_be_in_literal(name));
    let mut name = |m: &mut Maker, own: String, odd: &[&str]| {
        let is_odd = rate > 0 && random.one_in(rate);
        let name = if is_odd { random.pick(odd).into() } else { own };
        m.name(&name)
    };
    for number in 0..m.types.len() {
        m.types[number][0] = name(m, format!("S{number}"), &types);
    }
    for number in 0..m.constants.len() {
        m.constants[number][0] = name(m, format!("c{number}"), &declared);
    }
    for number in 0..m.functions.len() {
        m.functions[number][0] = name(m, format!("f{number}"), &declared);
    }
    for number in 0..m.terms.len() {
        match m.terms[number][0] {
            kind::CUSTOM_LITERAL => m.terms[number][1] = name(m, "red".into(), &in_literals),
            kind::BUILT_IN => {
                let operator = operators[(first + number) % operators.len()];
                m.terms[number][1] = name(m, operator.into(), &NAMES);
            }
            _ => {}
        }
    }
}

/// Books whose names are noise as the library's tests have them, or names
/// that are mostly right.
#[test]
fn random_books() {
    let mut random = Random::new(SEED);
    let mut verdicts = Verdicts::default();
    for number in 0..BOOKS {
        let size = SIZES[number % SIZES.len()];
        let counts = random_books::Counts::random(&mut random, size);
        let mut maker = random_book(&mut random, counts);
        match random.below(AT_TIMES) {
            0 => {}
            rate => {
                maker.letters.clear();
                maker.names.clear();
                maker.contexts.iter_mut().for_each(|context| context[2] = 0);
                rename(&mut random, &mut maker, (rate - 1) * RARELY);
            }
        }
        verdicts.compare(&maker.book());
    }
    println!("{verdicts:?}");
    verdicts.assert_met(BOOKS);
}

/// Names are told of exactly those books that are refused 28.
#[test]
fn books_refused_for_their_names() {
    let mut random = Random::new(SEED);
    let mut refused = 0;
    for _ in 0..BOOKS {
        let counts = random_books::Counts::random(&mut random, LARGEST);
        let maker = any_random_book(&mut random, counts);
        let told = refused_names(&maker.book());
        assert_eq!(told.is_empty(), ways_of(&maker).is_empty(), "{maker:?}");
        assert_eq!(!told.is_empty(), check_book(&maker.book()) == Err(BAD_NAME));
        refused += usize::from(!told.is_empty());
    }
    assert!(refused >= BOOKS / SHARE, "{refused}");
}

/// One number of a book's records is another, such as still passes.
fn damage(random: &mut Random, maker: &Maker) -> Maker {
    loop {
        let mut m = maker.clone();
        let sections = [
            Section::Names,
            Section::Constants,
            Section::Functions,
            Section::Terms,
            Section::Terms,
            Section::Contexts,
            Section::Lists,
            Section::Lists,
        ];
        let numbers = match random.pick(&sections) {
            Section::Names => m.names.as_flattened_mut(),
            Section::Constants => m.constants.as_flattened_mut(),
            Section::Functions => m.functions.as_flattened_mut(),
            Section::Terms => m.terms.as_flattened_mut(),
            Section::Contexts => m.contexts.as_flattened_mut(),
            _ => &mut m.lists,
        };
        if numbers.is_empty() {
            continue;
        }
        let place = random.below(numbers.len());
        let small = random.below(RARELY) as u32;
        let near = (numbers[place] + small).saturating_sub(random.below(RARELY) as u32);
        numbers[place] = if random.one_in(OFTEN) { small } else { near };
        if check(&m.book()).is_ok() {
            return m;
        }
    }
}

/// A chain's names and sorts are right, and numbers damaged make them wrong or
/// not.
#[test]
fn damaged_chains() {
    let mut random = Random::new(SEED);
    let mut verdicts = Verdicts::default();
    for _ in 0..CHAINS {
        let chain = random_chain_plan(&mut random, MOST_STEPS).maker;
        assert_eq!(check_book(&chain.book()), Ok(vec![]));
        let mut damaged = chain;
        for _ in 0..=random.below(FAULTS) {
            damaged = damage(&mut random, &damaged);
        }
        verdicts.compare(&damaged.book());
    }
    println!("{verdicts:?}");
    verdicts.assert_met(CHAINS);
}
