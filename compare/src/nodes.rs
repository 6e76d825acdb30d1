//! Tests of lists of nodes against the reference, and against the library's
//! own moves: books that lack an axiom at every place, every refusal, and
//! random lists.

use crate::made_books::{each_number_changed, faulty_books, full, good_books};
use crate::nodes_books::{lacking_books, Lacking};
use crate::nodes_call::{bytes, numbers, Moves, NodesCall, Outcome};
use crate::nodes_lengths;
use crate::nodes_library::{NodesTested, FAILS};
use crate::nodes_limits;
use crate::nodes_random::{nodes_book, nodes_list};
use crate::nodes_shapes::{visit_failing, visit_list, NODES_SHAPES};
use crate::nodes_terms::{every_order_in_a_term, every_place_of_a_term};
use crate::scratch_bytes::{random_scratch, LEAST, LENGTHS};
use crate::tally::{Met, Tally};
use leskofar_reference::book::NUMBER_SIZE;
use leskofar_reference::book_test::check;
use leskofar_reference::damage::damaged;
use leskofar_reference::levels::Levels;
use leskofar_reference::nodes::MOST_NODES;
use leskofar_reference::program::Program;
use leskofar_reference::random::{Random, RARELY};

const SEED: u64 = 0x6E6F_6465;
/// Random lists, and how many there are of one book.
const RANDOM_LISTS: usize = 100_000;
const LISTS_OF_A_BOOK: usize = 4;
/// How often a random list is held against moves too, as `one_in`.
const MOVED: usize = 4;
/// Books with more nodes are tried with the first few lengths of scratches
/// alone, which go a byte beyond the least that is taken.
const MANY: usize = 64;
const FEW: usize = 5;
/// How calls end.
pub const PASS_OR_FAIL: [Outcome; 3] =
    [Outcome::Passed, Outcome::FailedAtOnce, Outcome::FailedLater];
const REFUSED: [Outcome; 8] = [
    Outcome::Refused(1),
    Outcome::Refused(2),
    Outcome::Refused(3),
    Outcome::Refused(4),
    Outcome::Refused(5),
    Outcome::Refused(6),
    Outcome::Refused(28),
    Outcome::Refused(7),
];

/// Good lists and bad ones of every sort, for a book with so many nodes.
fn lists(nodes: u32) -> Vec<Vec<u8>> {
    let all: Vec<u32> = (0..=nodes).take(MOST_NODES).collect();
    let outside = [&all[..all.len() - 1], &[nodes + 1]].concat();
    let lists = [
        vec![],
        vec![0],
        all,
        outside,
        vec![nodes; MOST_NODES],
        vec![0; MOST_NODES + 1],
        vec![u32::MAX; MOST_NODES + 1],
        vec![nodes, u32::MAX],
    ];
    let cut = [1, NUMBER_SIZE - 1, MOST_NODES * NUMBER_SIZE + 1].map(|length| vec![0; length]);
    lists.iter().map(|list| bytes(list)).chain(cut).collect()
}

/// A list of nodes of a book whose failing ones are known.
fn expect(lacking: &Lacking, nodes: &[u32], met: &mut Met<Outcome>) -> Result<(), String> {
    let first = nodes.iter().position(|node| lacking.failing.contains(node));
    let call = NodesCall {
        book: &lacking.maker.book(),
        nodes: &bytes(nodes),
    };
    call.expect(Ok(first), met)
        .map_err(|what| format!("{}: {what}", lacking.name))?;
    Ok(())
}

fn made_groups(tally: &mut Tally) {
    tally.group("nodes, an axiom missing at every place", || {
        let mut met = Met::default();
        let mut books = lacking_books();
        books.extend([every_place_of_a_term(), every_order_in_a_term()]);
        for lacking in &books {
            let all = 0..=lacking.maker.contexts.len() as u32;
            let [down, up]: [Vec<u32>; 2] = [all.clone().collect(), all.clone().rev().collect()];
            expect(lacking, &down, &mut met)?;
            expect(lacking, &up, &mut met)?;
            for first in all.clone() {
                expect(lacking, &[first], &mut met)?;
                for second in all.clone() {
                    expect(lacking, &[first, second], &mut met)?;
                    expect(lacking, &[0, first, second, first], &mut met)?;
                }
            }
        }
        met.only(&PASS_OR_FAIL)
    });
    tally.group("nodes, every number of a book at every border", || {
        let mut met = Met::default();
        let mut first = Ok(());
        for lacking in lacking_books() {
            let all: Vec<u32> = (0..=lacking.maker.contexts.len() as u32).rev().collect();
            let nodes = &bytes(&all);
            each_number_changed(&lacking.maker, &mut |book| {
                if first.is_ok() {
                    let tested = NodesCall { book, nodes }.compare(&LEAST, &mut met);
                    first = tested.map(|_| ());
                }
            });
        }
        first?;
        met.all_of(&PASS_OR_FAIL)?;
        met.all_of(&[2, 4, 5, 28].map(Outcome::Refused))
    });
}

fn refusal_groups(tally: &mut Tally) {
    tally.group("nodes, every refusal with every later one", || {
        let mut met = Met::default();
        let nodes = full().contexts.len() as u32;
        for book in &faulty_books() {
            for nodes in &lists(nodes) {
                for scratch in [&[], &LEAST[1..], &LEAST] {
                    NodesCall { book, nodes }.compare(scratch, &mut met)?;
                }
            }
        }
        met.all_of(&REFUSED)
    });
    tally.group("nodes, every scratch", || {
        let mut met = Met::default();
        let mut random = Random::new(SEED);
        let made = lacking_books().into_iter().map(|lacking| lacking.maker);
        for m in good_books().into_iter().chain(made) {
            let book = &m.book();
            for nodes in &lists(m.contexts.len() as u32) {
                let lengths = if m.contexts.len() > MANY {
                    &LENGTHS[..FEW]
                } else {
                    &LENGTHS
                };
                for length in lengths {
                    let scratch = random.bytes(*length);
                    NodesCall { book, nodes }.compare(&scratch, &mut met)?;
                }
            }
        }
        met.all_of(&PASS_OR_FAIL)?;
        met.all_of(&[1, 3, 7].map(Outcome::Refused))
    });
}

/// Adds what an accepted call met.
fn visit(program: &Program, nodes: &[u8], tested: NodesTested, shapes: &mut Met<&'static str>) {
    let nodes: Vec<usize> = numbers(nodes).iter().map(|node| *node as usize).collect();
    visit_list(program, &nodes, &mut |shape| shapes.add(shape));
    if tested.result == FAILS {
        let position = tested.position as usize;
        let parent = program.node(nodes[position]).map_or(0, |node| node.parent);
        let parent_fails = Levels::fresh(program, parent).is_none();
        visit_failing(program, &nodes, position, parent_fails, &mut |shape| {
            shapes.add(shape)
        });
    }
}

/// What random lists met.
#[derive(Default)]
struct Seen {
    met: Met<Outcome>,
    shapes: Met<&'static str>,
    /// Those that were held against moves too.
    moved: Met<Outcome>,
}

/// Some lists of one random book, which is damaged at times.
fn lists_of_a_book(random: &mut Random, moves: &mut Moves, seen: &mut Seen) -> Result<(), String> {
    let m = nodes_book(random);
    let book = if random.one_in(RARELY) {
        damaged(random, &m)
    } else {
        m.book()
    };
    let program = check(&book).ok();
    for _ in 0..LISTS_OF_A_BOOK {
        let call = NodesCall {
            book: &book,
            nodes: &nodes_list(random, m.contexts.len()),
        };
        let tested = call.compare(&random_scratch(random), &mut seen.met)?;
        let accepted = program.as_ref().filter(|_| tested.refusal == 0);
        if let Some(program) = accepted {
            visit(program, call.nodes, tested, &mut seen.shapes);
            if random.one_in(MOVED) {
                call.compare_with_moves(tested, moves)?;
                seen.moved.add(Outcome::of(tested));
            }
        }
    }
    Ok(())
}

fn random_group(tally: &mut Tally) {
    let lists = tally.share(RANDOM_LISTS);
    tally.group("nodes, random lists", || {
        let mut seen = Seen::default();
        let mut moves = Moves::new();
        let mut random = Random::new(SEED);
        for _ in 0..lists / LISTS_OF_A_BOOK {
            lists_of_a_book(&mut random, &mut moves, &mut seen)?;
        }
        seen.shapes.all_of(&NODES_SHAPES)?;
        seen.met.all_of(&REFUSED)?;
        let said = seen.met.all_of(&PASS_OR_FAIL)?;
        let moved = seen.moved.only(&PASS_OR_FAIL)?;
        Ok(format!(
            "{said}, by {} moves too, {} commands read strictly: {moved}",
            moves.made, moves.read
        ))
    });
}

pub fn run(tally: &mut Tally) {
    made_groups(tally);
    nodes_lengths::run(tally);
    nodes_limits::run(tally);
    refusal_groups(tally);
    random_group(tally);
}
