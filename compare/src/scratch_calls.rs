//! Every call that takes a scratch, under one form.

use crate::audit_call::AuditCall;
use crate::book_call;
use crate::calls::{self, Call};
use crate::listing::Listing;
use crate::nodes_call::{bytes, NodesCall};
use crate::print_call::{Print, ONE_LINE};
use crate::printing::compare_trace;
use crate::tally::Met;
use crate::turn_call::{self, Turn, TurnsMet};
use crate::writer_call::{self, Growth};
use crate::writer_met::call_name;

/// More than any text, reason or new book here has.
const ROOM: usize = 1 << 16;

/// A call but for its book, its scratch and the room to write in.
#[derive(Clone, Debug)]
pub enum Lent {
    BookTest,
    /// A term.
    Print(u32),
    /// A node.
    Trace(u32),
    /// A node and a goal.
    Listing(u32, u32),
    NodesTest(Vec<u32>),
    /// Questions, as the call takes them, and a script.
    Audit(Vec<u8>, Vec<u8>),
    /// A call and the image that it is given.
    Session(Call, Vec<u8>),
    /// A turn and the image that it is given.
    Turn(Turn, Vec<u8>),
    Grow(Growth),
}

impl Lent {
    pub fn name(&self) -> &'static str {
        match self {
            Lent::BookTest => "book_test",
            Lent::Print(_) => "print",
            Lent::Trace(_) => "trace",
            Lent::Listing(..) => "listing",
            Lent::NodesTest(_) => "nodes_test",
            Lent::Audit(..) => "audit",
            Lent::Session(Call::Move { .. }, _) => "move",
            Lent::Session(Call::Ask { .. }, _) => "ask",
            Lent::Session(Call::Reply { .. }, _) => "reply",
            Lent::Session(Call::Model { .. }, _) => "model",
            Lent::Turn(Turn::Widen, _) => "widen",
            Lent::Turn(Turn::Narrow, _) => "narrow",
            Lent::Grow(growth) => call_name(growth),
        }
    }

    /// Makes the call on both, with room for what it writes or none. Gives 0,
    /// or the number of the refusal.
    pub fn compare(&self, book: &[u8], scratch: &[u8], has_room: bool) -> Result<u32, String> {
        let room = if has_room { ROOM } else { 0 };
        match self {
            Lent::BookTest => book_call::compare(book, scratch, &mut Met::default()),
            Lent::Print(term) => print(book, *term, room, scratch),
            Lent::Trace(node) => {
                let left = compare_trace(book, *node, room, scratch, &mut Met::default())?;
                Ok(left.refusal())
            }
            Lent::Listing(node, goal) => {
                let [node, goal] = [*node, *goal];
                let call = Listing { book, node, goal };
                let left = call.compare(room, scratch, &mut Met::default())?;
                Ok(left.refusal())
            }
            Lent::NodesTest(nodes) => {
                let nodes = &bytes(nodes);
                let tested = NodesCall { book, nodes }.compare(scratch, &mut Met::default())?;
                Ok(tested.refusal)
            }
            Lent::Audit(questions, script) => audit(book, questions, script, scratch),
            Lent::Session(call, image) => session(book, call, image, room, scratch),
            Lent::Turn(to_other, image) => turn(book, *to_other, image, has_room, scratch),
            Lent::Grow(growth) => {
                let given = writer_call::Given {
                    book,
                    scratch,
                    room,
                };
                Ok(growth.compare(&given)?.answer.refusal)
            }
        }
    }
}

fn print(book: &[u8], term: u32, room: usize, scratch: &[u8]) -> Result<u32, String> {
    let call = Print {
        book,
        term,
        tag: 0,
        newlines: ONE_LINE,
        indent: 0,
    };
    let left = call.compare(room, scratch, &mut Met::default())?;
    Ok(left.refusal())
}

fn audit(book: &[u8], questions: &[u8], script: &[u8], scratch: &[u8]) -> Result<u32, String> {
    let call = AuditCall {
        book,
        questions,
        script,
    };
    let audited = call.compare(scratch, &mut Met::default())?;
    Ok(audited.refusal)
}

fn session(
    book: &[u8],
    call: &Call,
    image: &[u8],
    room: usize,
    scratch: &[u8],
) -> Result<u32, String> {
    let given = calls::Given {
        book,
        image,
        scratch,
        text: room,
        reason: room,
    };
    Ok(call.compare(&given)?.answer.refusal)
}

/// The room is that of an image of the right length, or none.
fn turn(
    book: &[u8],
    turn: Turn,
    image: &[u8],
    has_room: bool,
    scratch: &[u8],
) -> Result<u32, String> {
    let given = turn_call::Given {
        book,
        image,
        scratch,
        room: if has_room {
            turn.written().image_size()
        } else {
            0
        },
    };
    let turned = turn.compare(&given, &mut TurnsMet::default())?;
    Ok(turned.refusal())
}
