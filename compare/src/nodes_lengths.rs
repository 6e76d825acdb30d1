//! Lists of every length, and numbers at and behind the last node, against the
//! reference.

use crate::made_books::chain;
use crate::nodes::PASS_OR_FAIL;
use crate::nodes_books::lacking_books;
use crate::nodes_call::{bytes, NodesCall, Outcome};
use crate::nodes_trees::planted;
use crate::scratch_bytes::LEAST;
use crate::tally::{Met, Tally};
use leskofar_reference::book::NUMBER_SIZE;
use leskofar_reference::book_test::MOST_DEPTH;
use leskofar_reference::maker::{sample, Maker};
use leskofar_reference::nodes::MOST_NODES;
use leskofar_reference::refusal::{COUNT, NOT_IN_BOOK};

/// Bytes of the longest list that is taken.
const LIST_SIZE: usize = MOST_NODES * NUMBER_SIZE;
/// Lengths in bytes: all up to this, all so near to the longest, and some that
/// are much longer.
const SHORT: usize = 40;
const NEAR: usize = 9;
const MUCH_LONGER: [usize; 4] = [2 * LIST_SIZE, 2 * LIST_SIZE + 1, 1 << 16, (1 << 18) + 3];
/// How many nodes such a number stands beside, at most.
const BESIDE: usize = 16;
/// Numbers that are a node in some of their bytes only.
const IN_PART: [u32; 6] = [1 << 8, 1 << 16, 1 << 24, 1 << 31, 1 + (1 << 24), u32::MAX];

/// What the length decides of a list of nodes that are all there, and the first
/// place where one fails.
fn by_length(length: usize, failing: Option<usize>) -> Result<Option<usize>, u32> {
    if length > LIST_SIZE {
        Err(COUNT)
    } else if !length.is_multiple_of(NUMBER_SIZE) {
        Err(NOT_IN_BOOK)
    } else {
        Ok(failing.filter(|at| *at < length / NUMBER_SIZE))
    }
}

fn length_group(tally: &mut Tally) {
    tally.group("nodes, lists of every length", || {
        let mut met = Met::default();
        let [good, lacking, none] = [sample().maker, planted(&[0, 0], &[2]), Maker::default()];
        // The first node, the others, and the place where one fails.
        let cases = [
            (good.book(), 3, 2, None),
            (lacking.book(), 0, 1, None),
            (lacking.book(), 1, 2, Some(1)),
            (lacking.book(), 2, 2, Some(0)),
            (none.book(), 0, 0, None),
        ];
        let near = LIST_SIZE - NEAR..=LIST_SIZE + NEAR;
        for length in (0..=SHORT).chain(near).chain(MUCH_LONGER) {
            for (book, first, others, failing) in &cases {
                let others = vec![*others; length / NUMBER_SIZE];
                let list = bytes(&[&[*first], &others[..]].concat());
                let nodes = &list[..length];
                NodesCall { book, nodes }.expect(by_length(length, *failing), &mut met)?;
            }
        }
        met.all_of(&PASS_OR_FAIL)?;
        met.all_of(&[COUNT, NOT_IN_BOOK].map(Outcome::Refused))
    });
}

/// A number at every place of short lists, beside some nodes; 7 exactly if it
/// is no node.
fn compare_number(m: &Maker, number: u32, met: &mut Met<Outcome>) -> Result<(), String> {
    let book = &m.book();
    let last = m.contexts.len() as u32;
    for node in (0..=last).step_by(m.contexts.len() / BESIDE + 1) {
        for list in [
            &[number][..],
            &[node, number],
            &[number, node],
            &[node, number, node],
        ] {
            let nodes = &bytes(list);
            let call = NodesCall { book, nodes };
            let tested = call.compare(&LEAST, met)?;
            if (number > last) != (tested.refusal == NOT_IN_BOOK) {
                return Err(format!("{tested:?}, of {call:?}"));
            }
        }
    }
    Ok(())
}

fn number_group(tally: &mut Tally) {
    tally.group("nodes, numbers at and behind the last", || {
        let mut met = Met::default();
        let mut books: Vec<Maker> = lacking_books().into_iter().map(|l| l.maker).collect();
        books.extend([
            Maker::default(),
            sample().maker,
            chain(1),
            chain(MOST_DEPTH),
        ]);
        for m in &books {
            let last = m.contexts.len() as u32;
            let beside = [last.saturating_sub(1), last, last + 1, last + 2];
            for number in beside.into_iter().chain(IN_PART) {
                compare_number(m, number, &mut met)?;
            }
        }
        met.all_of(&PASS_OR_FAIL)?;
        met.all_of(&[Outcome::Refused(NOT_IN_BOOK)])
    });
}

pub fn run(tally: &mut Tally) {
    length_group(tally);
    number_group(tally);
}
