//! Random growths of random books, good, damaged and full, against a plainer
//! view; and sessions that go on while their book grows.

use crate::desk::Desk;
use crate::naive_writer::naive_grown;
use crate::writer_desk::{bytes, grown, Growth};
use leskofar_reference::book::Section;
use leskofar_reference::damage::damaged;
use leskofar_reference::maker::Maker;
use leskofar_reference::random::{Random, AT_TIMES, OFTEN, RARELY};
use leskofar_reference::random_books::{random_book, Counts};
use std::collections::BTreeMap;

const SEED: u64 = 20_261_117;
/// Sizes of books, with how many are made of each.
const SIZES: [(usize, usize); 6] = [
    (0, 300),
    (1, 1_500),
    (3, 2_500),
    (12, 2_000),
    (60, 150),
    (400, 15),
];
/// Growths of one book.
const GROWTHS: usize = 8;
/// Each call is refused and accepted more often than this.
const OFTEN_ENOUGH: usize = 20;
const CALLS: usize = 8;
const TEXTS: [&str; 8] = ["", "=", "probe%0", "probe%1", "probe%2", "a", "a:b", "\x1F"];

/// A number within a count, or one that is hardly outside.
fn number(random: &mut Random, count: usize) -> u32 {
    if count == 0 || random.one_in(RARELY) {
        random.pick(&[count as u32, (count as u32).wrapping_add(1), u32::MAX])
    } else {
        random.below(count) as u32
    }
}

fn text(random: &mut Random) -> Vec<u8> {
    random.pick(&TEXTS).into()
}

fn trace(random: &mut Random) -> Option<Vec<u8>> {
    random.one_in(OFTEN).then(|| text(random))
}

/// Lists of numbers, at times cut.
fn list(random: &mut Random, count: usize) -> Vec<u8> {
    let many = random.up_to(2);
    let numbers: Vec<u32> = (0..many).map(|_| number(random, count)).collect();
    let mut list = bytes(&numbers);
    if random.one_in(4 * RARELY) {
        list.push(0);
    }
    list
}

fn term(random: &mut Random, m: &Maker) -> Growth {
    let terms = m.terms.len();
    let kind = random.up_to(9) as u32;
    let ([a, b, c, f], [first, second]) = match kind {
        0 => ([2, 0, 0, 0], [0, 0]),
        1 => ([usize::MAX, usize::MAX, 0, 0], [0, 0]),
        2 => ([m.names.len(), 2 + m.types.len(), 0, 0], [0, 0]),
        3 => ([m.constants.len(), 0, 0, 0], [0, 0]),
        4 => ([m.names.len(), 0, 0, 0], [terms, 0]),
        5 => ([m.functions.len(), 0, 0, 0], [terms, 0]),
        6 => ([terms, terms, terms, 0], [0, 0]),
        7 => ([m.constants.len(), terms, terms, 0], [0, 0]),
        8 => ([2, 0, 0, terms], [m.constants.len(), m.patterns.len()]),
        _ => ([0; 4], [0, 0]),
    };
    let mut field = |bound: usize| if bound == 0 { 0 } else { number(random, bound) };
    let mut record = [kind, field(a), field(b), field(c), 0, 0, field(f)];
    if random.one_in(2 * RARELY) {
        let at = 1 + random.below(6);
        record[at] = 1;
    }
    let stray = random.one_in(2 * RARELY);
    let lists = [first, second].map(|bound| {
        if bound > 0 || stray {
            list(random, bound)
        } else {
            vec![]
        }
    });
    Growth::Term(record, lists)
}

/// A growth of a book with these records.
pub fn growth(random: &mut Random, m: &Maker) -> Growth {
    let [terms, names] = [m.terms.len(), m.names.len()];
    let types = 2 + m.types.len();
    let parent = number(random, m.contexts.len() + 1);
    let given = number(random, terms);
    match random.below(CALLS) {
        0 => Growth::Name(text(random)),
        1 => Growth::Constant([number(random, names), number(random, types)]),
        2 => term(random, m),
        3 => Growth::Node([parent, given, number(random, names + 1)]),
        4 => Growth::Extend([parent, given], trace(random)),
        5 => Growth::Equality([parent, number(random, m.constants.len()), given]),
        6 => Growth::Record([parent, given, number(random, types)], trace(random)),
        _ => Growth::TracePoint(parent, text(random)),
    }
}

/// Terms that nothing refers to, so that nodes can be appended.
fn with_free_terms(mut m: Maker, random: &mut Random) -> Maker {
    for _ in 0..random.up_to(4) {
        if m.terms.len() < Section::Terms.most() {
            m.boolean(true);
        }
    }
    m
}

fn place(growth: &Growth) -> usize {
    match growth {
        Growth::Name(_) => 0,
        Growth::Constant(_) => 1,
        Growth::Term(..) => 2,
        Growth::Node(_) => 3,
        Growth::Extend(..) => 4,
        Growth::Equality(_) => 5,
        Growth::Record(..) => 6,
        Growth::TracePoint(..) => 7,
    }
}

#[test]
fn random_growths() {
    let mut random = Random::new(SEED);
    let mut met: BTreeMap<(usize, u32), usize> = BTreeMap::new();
    for (size, many) in SIZES {
        for _ in 0..many {
            let counts = Counts::random(&mut random, size);
            let m = with_free_terms(random_book(&mut random, counts), &mut random);
            let is_damaged = random.one_in(AT_TIMES);
            let book = if is_damaged {
                damaged(&mut random, &m)
            } else {
                m.book()
            };
            for _ in 0..GROWTHS {
                let growth = growth(&mut random, &m);
                let answer = grown(&book, &growth);
                assert_eq!(answer, naive_grown(&book, &growth), "{growth:?}");
                let refusal = answer.err().unwrap_or(0);
                *met.entry((place(&growth), refusal)).or_default() += 1;
            }
        }
    }
    for call in 0..CALLS {
        let has_seven = call >= 3;
        for refusal in [0, 2, 3, 4, 5, 6].into_iter().chain(has_seven.then_some(7)) {
            let times = met.get(&(call, refusal)).copied().unwrap_or(0);
            assert!(times > OFTEN_ENOUGH, "{call} {refusal} {times}");
        }
        assert_eq!(met.contains_key(&(call, 7)), has_seven);
    }
}

/// A session that was reached on the old book does the same on the grown one,
/// with a question open or not: replies and models that were owed are taken.
#[test]
fn sessions_go_on_while_their_book_grows() {
    let mut random = Random::new(SEED);
    let [mut grew, mut replies, mut models] = [0; 3];
    for _ in 0..1_000 {
        let counts = Counts::random(&mut random, 6);
        let m = with_free_terms(random_book(&mut random, counts), &mut random);
        let mut old = Desk::new(&m);
        for _ in 0..GROWTHS {
            let Ok((_, book)) = grown(&old.book, &growth(&mut random, &m)) else {
                continue;
            };
            let mut new = Desk::with_book(book);
            new.image = old.image.clone();
            let node = random.up_to(m.contexts.len()) as u32;
            let goal = random.below(m.terms.len().max(1)) as u32;
            let is_known = !m.terms.is_empty();
            if is_known && random.one_in(OFTEN) {
                assert_eq!(old.ask(node, goal), new.ask(node, goal));
            } else if random.one_in(OFTEN) {
                let answer = old.reply(false, b"sat");
                assert_eq!(answer, new.reply(false, b"sat"));
                replies += usize::from(answer.is_ok());
            } else if random.one_in(OFTEN) {
                let answer = old.model(b"sat", None);
                assert_eq!(answer, new.model(b"sat", None));
                models += usize::from(answer.is_ok());
            } else {
                assert_eq!(old.move_to(node), new.move_to(node));
            }
            assert_eq!(old.image, new.image);
            old.book = new.book;
            grew += 1;
        }
    }
    assert!(grew > 1_000, "{grew}");
    assert!(replies > OFTEN_ENOUGH, "{replies}");
    assert!(models > OFTEN_ENOUGH, "{models}");
}
