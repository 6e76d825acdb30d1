//! Lists of nodes that are tested: where an axiom may lack, and many random
//! lists against a plainer view.

use crate::desk::{buffer, Desk};
use crate::naive_nodes::{naive_first_failing, naive_lacks_an_axiom};
use leskofar_reference::audit_samples::{lacking, lacking_function};
use leskofar_reference::book::{Section, INT, NO_TERM};
use leskofar_reference::book_test::{check, MOST_DEPTH, SCRATCH_SIZE};
use leskofar_reference::engine::REngine;
use leskofar_reference::maker::{sample, Maker};
use leskofar_reference::nodes::MOST_NODES;
use leskofar_reference::nodes_test;
use leskofar_reference::random::{Random, AT_TIMES, OFTEN};
use leskofar_reference::random_books::{random_book, Counts};
use leskofar_reference::refusal::MISSING_AXIOM;

const SEED: u64 = 20_261_116;
/// Sizes of random books, with how many are made of each.
const SIZES: [(usize, usize); 5] = [(1, 200), (4, 1_000), (16, 1_500), (60, 100), (400, 4)];
/// Lists of each, and the most nodes of one.
const LISTS: usize = 5;
const LIST_LENGTH: usize = 12;
/// A scratch that is longer than it need be.
const LONG_SCRATCH: usize = SCRATCH_SIZE + 77;
/// Each answer comes more often than this among the random lists.
const OFTEN_ENOUGH: usize = 500;

pub fn list(nodes: &[u32]) -> Vec<u8> {
    nodes.iter().flat_map(|node| node.to_le_bytes()).collect()
}

/// The call on a book and the bytes of a list.
pub fn tested_from(book: &[u8], nodes: &[u8]) -> Result<Option<usize>, u32> {
    let answers = [SCRATCH_SIZE, LONG_SCRATCH].map(|size| {
        let mut scratch = buffer(size);
        let answer = nodes_test(book, &mut scratch, nodes);
        assert!(scratch.iter().all(|byte| *byte == 0));
        answer
    });
    assert_eq!(answers[0], answers[1]);
    answers[0]
}

pub fn tested(m: &Maker, nodes: &[u32]) -> Option<usize> {
    tested_from(&m.book(), &list(nodes)).expect("accepted")
}

/// The nodes of a book that fail, each tested by itself.
fn failing(m: &Maker) -> Vec<u32> {
    let nodes = 0..=m.contexts.len() as u32;
    nodes.filter(|node| tested(m, &[*node]).is_some()).collect()
}

#[test]
fn an_empty_list_and_the_root_pass() {
    for m in [Maker::default(), sample().maker, lacking()] {
        assert_eq!(tested(&m, &[]), None);
        assert_eq!(tested(&m, &[0]), None);
        assert_eq!(tested(&m, &[0; MOST_NODES]), None);
    }
    assert_eq!(tested(&sample().maker, &[3, 2, 1, 0]), None);
}

#[test]
fn the_first_position_that_fails() {
    let m = lacking();
    assert_eq!(failing(&m), [2, 3]);
    for (nodes, first) in [
        (&[2][..], Some(0)),
        (&[0, 2], Some(1)),
        (&[1, 4, 2, 0], Some(2)),
        // A child of a node that fails, before it and alone.
        (&[1, 3], Some(1)),
        (&[3, 2], Some(0)),
        (&[4, 1, 0, 4, 1], None),
        // Twice, both of the good ones and of the bad ones.
        (&[1, 1, 2, 2], Some(2)),
        (&[2, 2], Some(0)),
    ] {
        assert_eq!(tested(&m, nodes), first, "{nodes:?}");
    }
    let mut nodes = vec![4; MOST_NODES];
    assert_eq!(tested(&m, &nodes), None);
    nodes[MOST_NODES - 1] = 3;
    assert_eq!(tested(&m, &nodes), Some(MOST_NODES - 1));
}

#[test]
fn an_axiom_of_an_axiom() {
    let mut m = Maker::default();
    let f = lacking_function(&mut m);
    let g = m.function("g", &[], INT);
    let leads_there = m.apply(f, &[]);
    let axiom = m.axiom(Some(leads_there), &[g]);
    m.explained_by(g, &[axiom]);
    let [first, second] = [m.boolean(true), m.apply(g, &[])];
    m.context(0, first);
    m.context(0, second);
    assert_eq!(failing(&m), [2]);
}

/// The axiom is missed although the function that it explains is not declared.
#[test]
fn an_axiom_that_would_not_be_sent() {
    let mut m = Maker::default();
    let [f, g] = ["f", "g"].map(|name| m.function(name, &[], INT));
    let missing = m.axiom(None, &[g]);
    m.explained_by(f, &[missing]);
    let [with_g, with_f] = [m.apply(g, &[]), m.apply(f, &[])];
    m.context(0, with_g);
    m.context(0, with_f);
    assert_eq!(failing(&m), [2]);
}

/// An axiom that explains both functions is listed by the first alone. Where
/// the second is declared before, the axiom is sent and leads to one that is
/// missing; else it never is.
#[test]
fn an_axiom_that_is_sent_only_in_one_order() {
    let mut m = Maker::default();
    let lost = lacking_function(&mut m);
    let [g, h] = ["g", "h"].map(|name| m.function(name, &[], INT));
    let leads_there = m.apply(lost, &[]);
    let axiom = m.axiom(Some(leads_there), &[g, h]);
    m.explained_by(g, &[axiom]);
    let terms = [g, h, h, g].map(|function| m.apply(function, &[]));
    for (parent, term) in [0, 1, 0, 3].into_iter().zip(terms) {
        m.context(parent, term);
    }
    assert_eq!(failing(&m), [4]);
}

/// What an upper node declared is not looked up again: the lower node fails
/// only because the upper one does.
#[test]
fn a_function_that_an_upper_node_declares() {
    let mut m = Maker::default();
    let f = lacking_function(&mut m);
    let terms = [(); 3].map(|()| m.apply(f, &[]));
    for (parent, term) in [0, 1, 0].into_iter().zip(terms) {
        m.context(parent, term);
    }
    assert_eq!(failing(&m), [1, 2, 3]);
    m.axioms.clear();
    m.explained_by(f, &[]);
    assert_eq!(failing(&m), []);
}

#[test]
fn goals_and_what_no_node_reaches_play_no_part() {
    let mut m = Maker::default();
    let f = lacking_function(&mut m);
    let [premise, goal] = [m.boolean(true), m.apply(f, &[])];
    let node = m.context(0, premise);
    assert_eq!(tested(&m, &[node, 0, node]), None);
    assert_eq!(Desk::new(&m).ask(node, goal), Err(MISSING_AXIOM));
}

/// As many nodes as there can be, in chains as deep as they may be; only the
/// last one lacks an axiom.
#[test]
fn every_node_of_the_largest_book() {
    let mut m = Maker::default();
    let f = lacking_function(&mut m);
    let last = Section::Contexts.most() as u32;
    for node in 1..=last {
        let term = if node == last {
            m.apply(f, &[])
        } else {
            m.boolean(true)
        };
        let starts_anew = (node - 1).is_multiple_of(MOST_DEPTH as u32);
        m.context(if starts_anew { 0 } else { node - 1 }, term);
    }
    let [downward, upward]: [Vec<u32>; 2] = [(1..=last).collect(), (1..=last).rev().collect()];
    assert_eq!(tested(&m, &downward), Some(MOST_NODES - 1));
    assert_eq!(tested(&m, &upward), Some(0));
    assert_eq!(tested(&m, &[last - 1; MOST_NODES]), None);
    assert_eq!(tested(&m, &[last; MOST_NODES]), Some(0));
}

/// A book some of whose axioms have lost their terms.
fn book_that_lacks_some(random: &mut Random, size: usize) -> Maker {
    let counts = Counts::random(random, size);
    let mut m = random_book(random, counts);
    if random.one_in(OFTEN) {
        for axiom in &mut m.axioms {
            if random.one_in(AT_TIMES) {
                axiom[0] = NO_TERM;
            }
        }
    }
    m
}

/// A node by itself, by moves of a session, by the engine of the Dafny bodies
/// and by the plainer view.
fn assert_node(m: &Maker, book: &[u8], node: u32) {
    let lacks = tested(m, &[node]).is_some();
    assert_eq!(lacks, naive_lacks_an_axiom(m, node));
    let mut desk = Desk::with_book(book.to_vec());
    assert_eq!(lacks, desk.move_to(node) == Err(MISSING_AXIOM));
    let program = check(book).expect("passes");
    let mut engine = REngine::new(&program);
    engine.set_context(node as usize);
    assert_eq!(lacks, engine.missing_axiom());
}

#[test]
fn random_lists() {
    let mut random = Random::new(SEED);
    let [mut passed, mut failed_at_once, mut failed_later] = [0; 3];
    for (size, many) in SIZES {
        for _ in 0..many {
            let m = book_that_lacks_some(&mut random, size);
            let book = m.book();
            for _ in 0..LISTS {
                let nodes: Vec<u32> = (0..random.up_to(LIST_LENGTH))
                    .map(|_| random.up_to(m.contexts.len()) as u32)
                    .collect();
                let first = tested(&m, &nodes);
                assert_eq!(first, naive_first_failing(&m, &nodes));
                if let Some(node) = nodes.last() {
                    assert_node(&m, &book, *node);
                }
                match first {
                    None => passed += 1,
                    Some(0) => failed_at_once += 1,
                    Some(_) => failed_later += 1,
                }
            }
        }
    }
    for times in [passed, failed_at_once, failed_later] {
        assert!(times > OFTEN_ENOUGH, "{times}");
    }
}
