//! A test of a list of nodes, made on the library and on the reference: the
//! answer, every byte of the scratch and behind it, and that book and list
//! stay as they are. And the same list by the library's own moves.

use crate::buffers::Fenced;
use crate::nodes_library::{self as library, NodesTested, FAILS, PASS};
use crate::scratch_bytes::{are_left, LEAST};
use crate::session_library::{self, Buffers};
use crate::strict::{read_whole, reading_of};
use crate::tally::Met;
use leskofar_reference::book::{number_at, NUMBER_SIZE};
use leskofar_reference::book_test::SCRATCH_SIZE;
use leskofar_reference::image::IMAGE_SIZE;
use leskofar_reference::refusal::MISSING_AXIOM;
use std::fmt::{Display, Formatter};
use std::hint::black_box;

/// How a call ends.
#[derive(Clone, Copy, Debug, PartialEq, Eq, PartialOrd, Ord)]
pub enum Outcome {
    Passed,
    FailedAtOnce,
    FailedLater,
    Refused(u32),
}

impl Outcome {
    pub fn of(tested: NodesTested) -> Outcome {
        match tested {
            NodesTested { refusal: 1.., .. } => Outcome::Refused(tested.refusal),
            NodesTested { result: PASS, .. } => Outcome::Passed,
            NodesTested { position: 0, .. } => Outcome::FailedAtOnce,
            _ => Outcome::FailedLater,
        }
    }
}

impl Display for Outcome {
    fn fmt(&self, f: &mut Formatter) -> std::fmt::Result {
        match self {
            Outcome::Passed => f.write_str("passed"),
            Outcome::FailedAtOnce => f.write_str("failed at 0"),
            Outcome::FailedLater => f.write_str("failed later"),
            Outcome::Refused(number) => write!(f, "refused {number}"),
        }
    }
}

/// A list as the call takes it.
pub fn bytes(nodes: &[u32]) -> Vec<u8> {
    nodes.iter().flat_map(|node| node.to_le_bytes()).collect()
}

/// The numbers of a list; one that is cut is left out.
pub fn numbers(nodes: &[u8]) -> Vec<u32> {
    let whole = nodes.chunks_exact(NUMBER_SIZE);
    whole.map(|bytes| number_at(bytes, 0)).collect()
}

/// An answer, as the library tells it.
pub fn told(answer: Result<Option<usize>, u32>) -> NodesTested {
    match answer {
        Ok(None) => NodesTested::default(),
        Ok(Some(position)) => NodesTested {
            refusal: 0,
            result: FAILS,
            position: position as u64,
        },
        Err(refusal) => NodesTested {
            refusal,
            ..NodesTested::default()
        },
    }
}

/// A call but for its scratch.
#[derive(Clone, Copy, Debug)]
pub struct NodesCall<'b> {
    pub book: &'b [u8],
    pub nodes: &'b [u8],
}

impl NodesCall<'_> {
    pub fn compare(self, scratch: &[u8], met: &mut Met<Outcome>) -> Result<NodesTested, String> {
        let [mut theirs, mut ours] = [scratch; 2].map(Fenced::holding);
        let expected = told(leskofar_reference::nodes_test(
            self.book,
            theirs.room(),
            self.nodes,
        ));
        let book = self.book.to_vec();
        // Read on behind its end, a number that is cut would be a node.
        let nodes = [self.nodes, &[0; NUMBER_SIZE]].concat();
        let tested = library::nodes_test(&book, ours.room(), &nodes[..self.nodes.len()]);
        met.add(Outcome::of(expected));
        let stayed =
            *black_box(&book) == self.book && black_box(&nodes)[..self.nodes.len()] == *self.nodes;
        let what = if tested != expected {
            format!("{tested:?}, expected {expected:?}")
        } else if !are_left([&ours, &theirs], scratch, tested.refusal) {
            format!("another scratch after {tested:?}")
        } else if !stayed {
            format!("another book or list after {tested:?}")
        } else {
            return Ok(tested);
        };
        Err(format!("{what}, with scratch {scratch:?}, of {self:?}"))
    }

    /// With the least scratch, where the answer is known beforehand.
    pub fn expect(
        self,
        answer: Result<Option<usize>, u32>,
        met: &mut Met<Outcome>,
    ) -> Result<NodesTested, String> {
        let tested = self.compare(&LEAST, met)?;
        if tested == told(answer) {
            Ok(tested)
        } else {
            Err(format!("{tested:?}, known {answer:?}, of {self:?}"))
        }
    }

    /// Of an accepted call: the library's moves, each on a fresh image, are
    /// accepted before the position and refused 9 there. Their text is read
    /// strictly where the operators are sane.
    pub fn compare_with_moves(self, tested: NodesTested, moves: &mut Moves) -> Result<(), String> {
        let failing = (tested.result == FAILS).then_some(tested.position as usize);
        let reading = reading_of(self.book);
        for (at, node) in numbers(self.nodes).into_iter().enumerate() {
            let (refusal, text) = moves.make(self.book, node);
            let commands = match reading {
                Some(reading) => read_whole(reading, text)?,
                None => 0,
            };
            moves.read += commands;
            let fails = failing == Some(at);
            if refusal != if fails { MISSING_AXIOM } else { 0 } {
                return Err(format!("{tested:?}, move {at} {refusal}, of {self:?}"));
            }
            if fails {
                return Ok(());
            }
        }
        match failing {
            None => Ok(()),
            Some(at) => Err(format!("there is no position {at}, of {self:?}")),
        }
    }
}

/// Buffers with room for every text, to move in.
pub struct Moves {
    image: [u8; IMAGE_SIZE],
    text: Vec<u8>,
    pub made: usize,
    /// The commands that the strict reader read.
    pub read: usize,
}

impl Moves {
    /// More than any text here has.
    const ROOM: usize = 1 << 22;

    pub fn new() -> Moves {
        Moves {
            image: [0; IMAGE_SIZE],
            text: vec![0; Moves::ROOM],
            made: 0,
            read: 0,
        }
    }

    /// The refusal and the text of a fresh session's move to a node.
    fn make(&mut self, book: &[u8], node: u32) -> (u32, &[u8]) {
        self.made += 1;
        session_library::fresh(&mut self.image);
        let mut buffers = Buffers {
            scratch: &mut [0; SCRATCH_SIZE],
            image: &mut self.image,
            text: &mut self.text,
            reason: &mut [],
        };
        let answer = session_library::move_to(book, &mut buffers, node);
        (answer.refusal, &self.text[..answer.text as usize])
    }
}
