//! Listings as deep and as long as a book allows, and many random ones
//! against a plainer writing.

use crate::listing::{listed, listed_from, ROOM, TITLE, TURNSTILE};
use crate::naive_listing::naive_listing;
use leskofar_reference::book::{kind, Section, INT};
use leskofar_reference::book_test::{check, MOST_DEPTH};
use leskofar_reference::listing::print_proof_obligation;
use leskofar_reference::maker::Maker;
use leskofar_reference::random::Random;
use leskofar_reference::random_books::{random_book, Counts};
use leskofar_reference::refusal::TOO_LONG;
use leskofar_reference::sink::Sink;

const SEED: u64 = 20_260_106;
/// Sizes of random books, with how many are made of each.
const SIZES: [(usize, usize); 4] = [(1, 500), (4, 500), (16, 200), (100, 10)];
/// Listings of each.
const LISTINGS: usize = 10;

#[test]
fn the_deepest_node_and_no_trace() {
    let mut m = Maker::default();
    let mut node = 0;
    // As many as there is room for beside the path.
    let siblings = Section::Contexts.most() - MOST_DEPTH;
    for step in 0..MOST_DEPTH {
        if step < siblings {
            let sibling = m.boolean(true);
            m.traced_context(node, sibling, "aside");
        }
        let premise = m.integer(step as i64);
        node = m.traced_context(node, premise, "unseen");
    }
    let goal = m.boolean(false);
    let premises: String = (0..MOST_DEPTH).map(|step| format!("  {step}\n")).collect();
    let expected = [TITLE, &premises, TURNSTILE, "  false\n"].concat();
    assert_eq!(listed(&m, node, goal), expected);
}

/// A nest's constant and its function, which every step may use.
const V: u32 = 0;
const F: u32 = 0;

/// As many terms as fit, one in the other, as a premise and as the goal. What
/// a step opens is to stand there once for each.
fn assert_nests(opened: &str, mut nest: impl FnMut(&mut Maker, u32) -> u32) {
    let mut m = Maker::default();
    m.constant("v", INT);
    m.function("f", &[], INT);
    let mut whole = m.id(V);
    let mut steps = 0;
    loop {
        let mut larger = m.clone();
        let outer = nest(&mut larger, whole);
        let fits = |section: Section| larger.count(section) <= section.most();
        if !Section::ALL.into_iter().all(fits) {
            break;
        }
        (m, whole) = (larger, outer);
        steps += 1;
    }
    let node = m.context(0, whole);
    let expected = naive_listing(&m, node, whole);
    assert_eq!(expected.matches(opened).count(), 2 * steps, "{opened}");
    let text = listed_from(&m.book(), node, whole, expected.len());
    assert_eq!(text.as_deref(), Ok(&expected[..]));
}

#[test]
fn the_deepest_terms() {
    assert_nests("(forall v: int ", |m, body| {
        m.quantifier(true, &[V], &[], body)
    });
    assert_nests("f(", |m, first| {
        let last = m.id(V);
        m.apply(F, &[first, last])
    });
    assert_nests("(if ", |m, guard| {
        let [thn, els] = [m.id(V), m.id(V)];
        m.if_then_else(guard, thn, els)
    });
    assert_nests("(val v: int := ", |m, rhs| {
        let body = m.id(V);
        m.let_expr(V, rhs, body)
    });
    assert_nests("(exists v: int pattern ", |m, hint| {
        let pattern = m.pattern(&[hint]);
        let body = m.id(V);
        m.quantifier(false, &[V], &[pattern], body)
    });
}

/// A text far longer than memory is only counted: quantifiers that share all
/// variables, whose name and type have all letters, in a premise and in the
/// goal.
#[test]
fn the_longest_text() {
    let mut m = Maker::default();
    let [letters, lists] = [Section::Letters.most(), Section::Lists.most()];
    let typ = m.user_type(&"t".repeat(letters));
    let [name] = m.types[0];
    m.constants.push([name, typ]);
    m.lists.resize(lists, 0);
    let mut whole = m.boolean(true);
    let quantifiers = Section::Terms.most() - 1;
    for _ in 0..quantifiers {
        let fields = [1, 0, lists as u32, 0, 0, whole];
        whole = m.term(kind::QUANTIFIER, fields);
    }
    let node = m.context(0, whole);
    let book = m.book();
    assert_eq!(listed_from(&book, node, whole, ROOM), Err(TOO_LONG));

    let variables = lists * (letters + ": ".len() + letters) + (lists - 1) * ", ".len();
    let quantified = "(forall ".len() + variables + " ".len() + ")".len();
    let line = "  ".len() + quantifiers * quantified + "true".len() + "\n".len();
    let whole_length = TITLE.len() + line + TURNSTILE.len() + line;
    let program = check(&book).expect("passes");
    let mut sink = Sink::new(0);
    print_proof_obligation(&program, node as usize, whole as usize, &mut sink);
    assert_eq!(sink.length(), whole_length as u64);
}

#[test]
fn random_listings() {
    let mut random = Random::new(SEED);
    for (size, many) in SIZES {
        for _ in 0..many {
            let counts = Counts::random(&mut random, size);
            let m = random_book(&mut random, counts);
            if m.terms.is_empty() {
                continue;
            }
            let book = m.book();
            for _ in 0..LISTINGS {
                let node = random.up_to(m.contexts.len()) as u32;
                let goal = random.below(m.terms.len()) as u32;
                let expected = naive_listing(&m, node, goal);
                let text = listed_from(&book, node, goal, expected.len());
                assert_eq!(text.as_deref(), Ok(&expected[..]));
                let short = listed_from(&book, node, goal, expected.len() - 1);
                assert_eq!(short, Err(TOO_LONG));
            }
        }
    }
}
