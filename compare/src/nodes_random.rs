//! Random books with missing axioms, and random lists of their nodes.

use crate::nodes_call::bytes;
use crate::session_books::session_book;
use leskofar_reference::book::{INT, NO_TERM, NUMBER_SIZE};
use leskofar_reference::book_test::MOST_DEPTH;
use leskofar_reference::maker::Maker;
use leskofar_reference::nodes::MOST_NODES;
use leskofar_reference::random::{Random, AT_TIMES, HARDLY_EVER, OFTEN, RARELY};
use leskofar_reference::random_books::{random_book, Counts};

/// The usual sizes of random books, and a rare one.
const SIZES: [usize; 4] = [2, 4, 8, 16];
const LARGE: usize = 60;
/// The most functions and axioms of a tree, and the most that each lists of the
/// others.
const FUNCTIONS: usize = 6;
const AXIOMS: usize = 6;
const FEW: usize = 2;
/// Nodes of usual trees, and of rare ones.
const NODES: [usize; 5] = [2, 4, 8, 16, 32];
const MANY_NODES: [usize; 3] = [64, 300, 512];
/// How often an axiom loses its term, as `one_in`.
const LOST: [usize; 4] = [1, 2, 3, 6];
/// How often a node applies a function, as `one_in`: in some trees all nodes
/// fail, in others few.
const APPLIES: [usize; 4] = [1, 3, 8, 24];
/// Numbers of usual lists, and of long ones.
const LENGTHS: [usize; 7] = [0, 1, 2, 4, 8, 12, 24];
const LONG_LENGTHS: [usize; 6] = [
    64,
    MOST_NODES - 1,
    MOST_NODES,
    MOST_NODES,
    MOST_NODES + 1,
    2 * MOST_NODES,
];
/// How often a list is long, and how often its last number is cut, as `one_in`.
const LONG: usize = 200;
const CUT: usize = 24;

/// A book of any sort; in most of them some axioms have lost their terms.
pub fn nodes_book(random: &mut Random) -> Maker {
    let mut m = if random.one_in(OFTEN) {
        let has_many = random.one_in(HARDLY_EVER);
        let nodes = random.pick(if has_many { &MANY_NODES[..] } else { &NODES });
        tree(random, nodes)
    } else if random.one_in(OFTEN) {
        session_book(random)
    } else {
        let is_large = random.one_in(HARDLY_EVER);
        let size = if is_large { LARGE } else { random.pick(&SIZES) };
        let counts = Counts::random(random, size);
        random_book(random, counts)
    };
    if !random.one_in(AT_TIMES) {
        lose_axioms(random, &mut m);
    }
    m
}

/// A tree of so many nodes, some of whose axioms have lost their terms.
pub fn lacking_tree(random: &mut Random, nodes: usize) -> Maker {
    let mut m = tree(random, nodes);
    lose_axioms(random, &mut m);
    m
}

fn lose_axioms(random: &mut Random, m: &mut Maker) {
    let lost = random.pick(&LOST);
    for axiom in &mut m.axioms {
        if random.one_in(lost) {
            axiom[0] = NO_TERM;
        }
    }
}

/// Nodes that apply a function or say nothing.
fn tree(random: &mut Random, nodes: usize) -> Maker {
    let mut m = Maker::default();
    let functions = 1 + random.below(FUNCTIONS);
    for _ in 0..functions {
        m.function("f", &[], INT);
    }
    let axioms = 1 + random.below(AXIOMS);
    for _ in 0..axioms {
        let term = term(random, &mut m, OFTEN);
        let explained = few_below(random, functions);
        m.axiom(Some(term), &explained);
    }
    for function in 0..functions {
        let listed = few_below(random, axioms);
        m.explained_by(function as u32, &listed);
    }
    add_nodes(random, &mut m, nodes);
    m
}

/// In a chain nearly every node hangs below the one before, else below any.
fn add_nodes(random: &mut Random, m: &mut Maker, nodes: usize) {
    let is_chain = random.one_in(OFTEN);
    let applies = random.pick(&APPLIES);
    let mut depths = vec![0];
    for node in 0..nodes {
        let wanted = if is_chain && !random.one_in(RARELY) {
            node
        } else {
            random.up_to(node)
        };
        let parent = if depths[wanted] < MOST_DEPTH {
            wanted
        } else {
            0
        };
        depths.push(depths[parent] + 1);
        let term = term(random, m, applies);
        m.context(parent as u32, term);
    }
}

fn term(random: &mut Random, m: &mut Maker, applies: usize) -> u32 {
    if random.one_in(applies) {
        let [outer, inner] = [(); 2].map(|()| random.below(m.functions.len()) as u32);
        let args = if random.one_in(AT_TIMES) {
            vec![m.apply(inner, &[])]
        } else {
            vec![]
        };
        m.apply(outer, &args)
    } else {
        m.boolean(true)
    }
}

fn few_below(random: &mut Random, bound: usize) -> Vec<u32> {
    let count = 1 + random.below(FEW);
    (0..count).map(|_| random.below(bound) as u32).collect()
}

/// A list for a book of so many nodes; at times one is outside, or cut.
pub fn nodes_list(random: &mut Random, nodes: usize) -> Vec<u8> {
    let is_long = random.one_in(LONG);
    let length = random.pick(if is_long { &LONG_LENGTHS[..] } else { &LENGTHS });
    let mut list = Vec::new();
    let anywhere = random.up_to(nodes);
    let mut at = random.pick(&[nodes, anywhere, anywhere, anywhere]);
    for _ in 0..length {
        list.push(at as u32);
        let anywhere = random.up_to(nodes);
        at = random.pick(&[at, (at + 1).min(nodes), at.saturating_sub(1), anywhere]);
    }
    if length > 0 && random.one_in(RARELY) {
        let last = nodes as u32;
        let outside = [last + 1, last + 2, 1 << 31, u32::MAX];
        list[random.below(length)] = random.pick(&outside);
    }
    let mut list = bytes(&list);
    if length > 0 && random.one_in(CUT) {
        list.truncate(list.len() - 1 - random.below(NUMBER_SIZE - 1));
    }
    list
}
