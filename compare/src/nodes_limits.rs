//! Lists of as many nodes as there can be, and nodes whose walk is as deep as
//! it can be, against the reference and the library's own moves.

use crate::made_costly::explained_often;
use crate::made_sessions::{axiom_chain, nested_axioms, nested_nodes};
use crate::nodes::PASS_OR_FAIL;
use crate::nodes_call::{bytes, Moves, NodesCall, Outcome};
use crate::nodes_random::lacking_tree;
use crate::nodes_trees::{chains, comb, failing, planted, star, Parents, MOST_TEETH, SPINE};
use crate::scratch_bytes::LEAST;
use crate::tally::{Met, Tally};
use leskofar_reference::book::{Section, NO_TERM};
use leskofar_reference::book_test::{check, MOST_DEPTH};
use leskofar_reference::levels::Levels;
use leskofar_reference::maker::Maker;
use leskofar_reference::nodes::MOST_NODES;
use leskofar_reference::random::Random;

const SEED: u64 = 0x7472_6565;
/// How many orders of a tree's nodes are held against moves too.
const MOVED: usize = 2;
/// Random trees, and failing nodes of each.
const TREES: usize = 60;
const FAILING: usize = 4;
/// Entries of the axioms that are listed often.
const ENTRIES: usize = 256;

fn mix(nodes: &mut [u32], random: &mut Random) {
    for at in 1..nodes.len() {
        nodes.swap(at, random.up_to(at));
    }
}

/// All nodes down and in no order, then up and across, and one again and
/// again.
fn orders(parents: &[u32], random: &mut Random) -> Vec<Vec<u32>> {
    let last = parents.len() as u32;
    let down: Vec<u32> = (1..=last).collect();
    let up: Vec<u32> = (1..=last).rev().collect();
    let step = MOST_DEPTH as u32;
    let across: Vec<u32> = (0..step)
        .flat_map(|k| (1 + k..=last).step_by(MOST_DEPTH))
        .collect();
    let mut mixed = down.clone();
    mix(&mut mixed, random);
    vec![
        down,
        mixed,
        up,
        across,
        vec![last; MOST_NODES],
        vec![step; MOST_NODES],
    ]
}

/// Every order of a tree's nodes, where these lack an axiom; the first orders
/// against moves too, which have every node in them.
fn compare_tree(
    parents: &[u32],
    lacking: &[u32],
    moves: &mut Moves,
    met: &mut Met<Outcome>,
) -> Result<(), String> {
    let book = &planted(parents, lacking).book();
    let fails = failing(parents, lacking);
    let orders = orders(parents, &mut Random::new(SEED));
    for (number, order) in orders.into_iter().enumerate() {
        let first = order.iter().position(|node| fails[*node as usize]);
        let nodes = &bytes(&order);
        let call = NodesCall { book, nodes };
        let tested = call.expect(Ok(first), met)?;
        if number < MOVED {
            call.compare_with_moves(tested, moves)?;
        }
    }
    Ok(())
}

fn tree_groups(tally: &mut Tally) {
    let most = Section::Contexts.most();
    let [last, deep, end] = [most, MOST_DEPTH, SPINE].map(|node| node as u32);
    let trees: [(&str, Parents, &[u32]); 3] = [
        (
            "400 deep",
            chains(most, MOST_DEPTH),
            &[deep / 2, deep, deep + 1, last],
        ),
        (
            "of a comb",
            comb(SPINE, MOST_TEETH),
            &[1, end, end + 1, last],
        ),
        ("of a star", star(most), &[1, deep, last]),
    ];
    for (name, parents, places) in trees {
        tally.group(&format!("nodes, all 512 {name}"), || {
            let mut met = Met::default();
            let mut moves = Moves::new();
            compare_tree(&parents, &[], &mut moves, &mut met)?;
            for lacking in places {
                compare_tree(&parents, &[*lacking], &mut moves, &mut met)?;
            }
            compare_tree(&parents, places, &mut moves, &mut met)?;
            let said = met.only(&PASS_OR_FAIL)?;
            Ok(format!(
                "{said}, {} moves, {} commands read strictly",
                moves.made, moves.read
            ))
        });
    }
}

/// The nodes that pass, in no order, and each of some that fail at some place
/// among them.
fn compare_mixed(random: &mut Random, met: &mut Met<Outcome>) -> Result<(), String> {
    let book = &lacking_tree(random, MOST_NODES - 1).book();
    let program = check(book).map_err(|refusal| format!("refused {refusal}"))?;
    let nodes = 0..=program.nodes().len() as u32;
    let passes = |node: &u32| Levels::fresh(&program, *node as usize).is_some();
    let (mut passing, mut failing): (Vec<u32>, Vec<u32>) = nodes.partition(passes);
    mix(&mut passing, random);
    mix(&mut failing, random);
    let nodes = &bytes(&passing);
    NodesCall { book, nodes }.expect(Ok(None), met)?;
    for node in failing.into_iter().take(FAILING) {
        let at = random.up_to(passing.len() - 1);
        let mut list = passing.clone();
        list[at] = node;
        let nodes = &bytes(&list);
        NodesCall { book, nodes }.expect(Ok(Some(at)), met)?;
    }
    Ok(())
}

fn mixed_group(tally: &mut Tally) {
    let trees = tally.share(TREES);
    tally.group(
        "nodes, all that pass, and one that fails among them",
        || {
            let mut met = Met::default();
            let mut random = Random::new(SEED);
            for _ in 0..trees {
                compare_mixed(&mut random, &mut met)?;
            }
            met.all_of(&[Outcome::Passed, Outcome::FailedLater])
        },
    );
}

/// The book as it is, and with each of some axioms missing.
fn with_missing(name: String, m: Maker) -> Vec<(String, Maker)> {
    let last = m.axioms.len().saturating_sub(1);
    let lost = [0, last / 2, last]
        .into_iter()
        .filter(|at| *at < m.axioms.len());
    let lost = lost.map(|at| {
        let mut m = m.clone();
        m.axioms[at][0] = NO_TERM;
        (format!("{name}, without axiom {at}"), m)
    });
    let lost: Vec<_> = lost.collect();
    lost.into_iter().chain([(name, m)]).collect()
}

fn nest_group(tally: &mut Tally) {
    tally.group("nodes, as deep as a book can nest", || {
        let mut met = Met::default();
        let mut moves = Moves::new();
        let mut often = explained_often(ENTRIES);
        let last_term = often.terms.len() as u32 - 1;
        often.context(0, last_term);
        let mut books = nested_nodes();
        books.extend(nested_axioms());
        books.push(("axioms of axioms".into(), axiom_chain()));
        books.push(("axioms listed often".into(), often));
        for (name, m) in books
            .into_iter()
            .flat_map(|(name, m)| with_missing(name, m))
        {
            let nodes = &bytes(&[0, m.contexts.len() as u32]);
            let call = NodesCall {
                book: &m.book(),
                nodes,
            };
            let tested = call.compare(&LEAST, &mut met);
            tested
                .and_then(|tested| call.compare_with_moves(tested, &mut moves))
                .map_err(|what| format!("{name}: {what}"))?;
        }
        met.only(&[Outcome::Passed, Outcome::FailedLater])
    });
}

pub fn run(tally: &mut Tally) {
    tree_groups(tally);
    mixed_group(tally);
    nest_group(tally);
}
