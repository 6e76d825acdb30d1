//! Speed of the test of a list of nodes as a ratio to the reference, and to
//! single moves of the library to the same nodes, all measured in this run.

use crate::library::book_test;
use crate::nodes_call::bytes;
use crate::nodes_library::{nodes_test, NodesTested};
use crate::nodes_trees::{chains, comb, planted, star};
use crate::session_library::{move_to, Buffers};
use crate::timing::{fastest, percent, ratio};
use leskofar_reference::book::Section;
use leskofar_reference::book_test::{MOST_DEPTH, SCRATCH_SIZE};
use leskofar_reference::fresh_image;
use leskofar_reference::maker::Maker;
use std::hint::black_box;

/// Numbers of a list, up to the most that it may have.
const NUMBERS: [usize; 4] = [64, 128, 256, 512];
/// The depth of most trees here.
const DEPTH: usize = 64;
/// The depth of two chains that fill a book.
const HALF: usize = Section::Contexts.most() / 2;
/// More than any text here has.
const ROOM: usize = 1 << 16;

/// Moves to each node, each of a fresh session with room enough.
fn move_to_each(book: &[u8], nodes: &[u32], scratch: &mut [u8], text: &mut [u8]) {
    for node in nodes {
        let mut buffers = Buffers {
            scratch,
            image: &mut fresh_image(),
            text,
            reason: &mut [],
        };
        let moved = move_to(book, &mut buffers, *node);
        assert_eq!(black_box(moved).refusal, 0, "node {node}");
    }
}

/// Prints a row of the table: a list that passes.
fn bench(name: &str, m: &Maker, nodes: &[u32]) {
    let book = m.book();
    let list = bytes(nodes);
    let mut text = vec![0; ROOM];
    let [mut first, mut second, mut third, mut fourth] = [[0; SCRATCH_SIZE]; 4];
    let tested = nodes_test(&book, &mut first, &list);
    assert_eq!(tested, NodesTested::default(), "{name}");
    let [ours, theirs, moved, book_tested] = fastest([
        &mut || {
            black_box(nodes_test(black_box(&book), &mut first, &list));
        },
        &mut || {
            let tested = leskofar_reference::nodes_test(black_box(&book), &mut second, &list);
            let _ = black_box(tested);
        },
        &mut || move_to_each(black_box(&book), nodes, &mut third, &mut text),
        &mut || {
            black_box(book_test(black_box(&book), &mut fourth));
        },
    ]);
    println!(
        "| {name} | {} | {} | {} | {:.1} | {:.3} | {:.3} | {:.0} |",
        nodes.len(),
        m.contexts.len(),
        book.len(),
        ours.as_secs_f64() * 1e6,
        ratio(ours, theirs),
        ratio(ours, moved),
        percent(book_tested, ours),
    );
}

/// So many numbers, the given nodes over and over.
fn over_and_over(nodes: impl Iterator<Item = u32> + Clone, numbers: usize) -> Vec<u32> {
    nodes.cycle().take(numbers).collect()
}

/// Down all nodes of chains so deep.
fn bench_chains(depth: usize, nodes: usize) {
    let m = planted(&chains(nodes, depth), &[]);
    let in_order: Vec<u32> = (1..=nodes as u32).collect();
    bench(&format!("chains {depth} deep, downward"), &m, &in_order);
}

/// From tooth to tooth of a comb that is so deep.
fn bench_comb(depth: usize, numbers: usize) {
    let spine = depth - 1;
    let room = Section::Contexts.most() - spine;
    let m = planted(&comb(spine, numbers.min(room)), &[]);
    let teeth = depth as u32..=m.contexts.len() as u32;
    let list = over_and_over(teeth, numbers);
    bench(
        &format!("a comb {depth} deep, from tooth to tooth"),
        &m,
        &list,
    );
}

/// Between the ends of two chains so deep: nothing is shared from one to the
/// next.
fn bench_ends(depth: usize, numbers: usize) {
    let m = planted(&chains(2 * depth, depth), &[]);
    let ends = [depth as u32, 2 * depth as u32];
    let list = over_and_over(ends.into_iter(), numbers);
    bench(
        &format!("the ends of two chains {depth} deep in turn"),
        &m,
        &list,
    );
}

pub fn run() {
    println!();
    println!(
        "| list | numbers | nodes of the book | bytes of the book | µs | ratio to reference \
         | ratio to single moves | book test, % |"
    );
    println!("|---|---|---|---|---|---|---|---|");
    let [fewest, ..] = NUMBERS;
    for numbers in NUMBERS {
        bench_chains(DEPTH, numbers);
    }
    bench_chains(MOST_DEPTH, MOST_DEPTH);
    for numbers in NUMBERS {
        bench_comb(DEPTH, numbers);
    }
    bench_comb(MOST_DEPTH, fewest);
    for numbers in NUMBERS {
        let m = planted(&star(numbers), &[]);
        let in_order: Vec<u32> = (1..=numbers as u32).collect();
        bench("a star", &m, &in_order);
    }
    for numbers in NUMBERS {
        bench_ends(DEPTH, numbers);
    }
    bench_ends(HALF, fewest);
}
