//! The call that tests a list of nodes before a session moves to them.

use crate::book::{number_at, NUMBER_SIZE};
use crate::book_test::open;
use crate::image::fresh_image;
use crate::program::Program;
use crate::refusal::{refuse_if, COUNT, MISSING_AXIOM, NOT_IN_BOOK};
use crate::session::move_to;

/// The most numbers that a list may have.
pub const MOST_NODES: usize = 512;

/// Gives the first position of the list, counted from 0, whose node a fresh
/// session could not move to for want of an axiom; None if it could move to
/// each. Refusals 1 to 6, 28, 3 for a longer list, and 7 for a node outside the
/// book, wherever it stands. Bytes behind the last whole number count as a
/// number more, which is no node.
pub fn nodes_test(book: &[u8], scratch: &mut [u8], nodes: &[u8]) -> Result<Option<usize>, u32> {
    let program = open(book, scratch)?;
    let numbers = nodes.chunks(NUMBER_SIZE);
    refuse_if(numbers.len() > MOST_NODES, COUNT)?;
    let nodes: Option<Vec<u32>> = numbers.map(|bytes| node_of(&program, bytes)).collect();
    let nodes = nodes.ok_or(NOT_IN_BOOK)?;
    let first = nodes
        .into_iter()
        .position(|node| lacks_an_axiom(book, scratch, node));
    Ok(first)
}

/// None for a node outside the book, and for a number that is cut.
fn node_of(program: &Program, bytes: &[u8]) -> Option<u32> {
    let is_whole = bytes.len() == NUMBER_SIZE;
    let node = is_whole.then(|| number_at(bytes, 0))?;
    program.has_node(node).then_some(node)
}

/// Whether a move of a fresh session is refused 9. It needs no buffer: 9 is
/// decided before 10, so with any room it is the same.
fn lacks_an_axiom(book: &[u8], scratch: &mut [u8], node: u32) -> bool {
    move_to(book, scratch, &mut fresh_image(), node, &mut []) == Err(MISSING_AXIOM)
}
