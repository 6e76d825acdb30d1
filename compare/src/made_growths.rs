//! Growths made by hand.

use crate::nodes_call::bytes;
use crate::writer_call::{Growth, Trace};
use leskofar_reference::book::{kind, INT, TERM_FIELDS};
use leskofar_reference::program::ROOT;

/// What stands where no trace is given; it is not looked at.
const NOT_LOOKED_AT: &[u8] = b"not looked at\n";

pub fn name(text: &[u8]) -> Growth {
    Growth::Name(text.to_vec())
}

pub fn term(record: [u32; TERM_FIELDS], lists: [&[u32]; 2]) -> Growth {
    Growth::Term(record, lists.map(bytes))
}

pub fn extend(parent: u32, term: u32, trace: Option<&[u8]>) -> Growth {
    Growth::Extend(parent, term, flagged(trace))
}

pub fn record(parent: u32, term: u32, typ: u32, trace: Option<&[u8]>) -> Growth {
    Growth::Record([parent, term, typ], flagged(trace))
}

pub fn trace_point(parent: u32, trace: &[u8]) -> Growth {
    Growth::TracePoint(parent, trace.to_vec())
}

fn flagged(trace: Option<&[u8]>) -> Trace {
    Trace {
        flag: u32::from(trace.is_some()),
        text: trace.unwrap_or(NOT_LOOKED_AT).to_vec(),
    }
}

/// The names of the calls, in the order of `each_call`.
pub const CALL_NAMES: [&str; 8] = [
    "append_name",
    "append_constant",
    "append_term",
    "append_node",
    "extend",
    "extend_with_equality",
    "record",
    "record_trace_point",
];

/// Each call with a text of its own, on a book with a name, a constant, and
/// this term and the next, which nothing refers to.
pub fn each_call(term: u32, text: &[u8]) -> [Growth; 8] {
    each_call_below(ROOT as u32, term, text)
}

/// The same, with another parent for the nodes.
pub fn each_call_below(parent: u32, term: u32, text: &[u8]) -> [Growth; 8] {
    [
        name(text),
        Growth::Constant(0, INT),
        self::term([kind::BUILT_IN, 0, 0, 0, 0, 0, 0], [&[term, term + 1], &[]]),
        Growth::Node(parent, term, 1),
        extend(parent, term, Some(text)),
        Growth::Equality(parent, 0, term),
        record(parent, term, INT, Some(text)),
        trace_point(parent, text),
    ]
}
