//! How calls of the writer ended, so that a comparison can tell what it never
//! met.

use crate::made_growths::CALL_NAMES;
use crate::tally::Met;
use crate::writer_call::{Grown, Growth};
use leskofar_reference::book_test::check;
use std::fmt::{Display, Formatter};

/// Which book a refusal is for, or the call itself.
#[derive(Clone, Copy, Debug, PartialEq, Eq, PartialOrd, Ord)]
enum Of {
    Accepted,
    Call(u32),
    Received(u32),
    Grown(u32),
}

#[derive(Clone, Copy, Debug, PartialEq, Eq, PartialOrd, Ord)]
pub struct End {
    call: &'static str,
    of: Of,
}

impl Display for End {
    fn fmt(&self, f: &mut Formatter) -> std::fmt::Result {
        let End { call, of } = self;
        match of {
            Of::Accepted => write!(f, "{call} accepted"),
            Of::Call(refusal) => write!(f, "{call} {refusal}"),
            Of::Received(refusal) => write!(f, "{call} {refusal} of the book received"),
            Of::Grown(refusal) => write!(f, "{call} {refusal} of the book grown"),
        }
    }
}

/// Of each call whether it names a parent, and the refusals that a grown book
/// can have.
const REFUSALS: [(bool, &[u32]); CALL_NAMES.len()] = [
    (false, &[3, 4]),
    (false, &[3, 4, 28]),
    (false, &[3, 4, 5, 28]),
    (true, &[3, 4, 5, 6]),
    (true, &[3, 4, 5, 6]),
    (true, &[3, 4, 5, 6]),
    (true, &[3, 4, 5, 6]),
    (true, &[3, 4, 6]),
];
const RECEIVED: [u32; 6] = [2, 3, 4, 5, 6, 28];

pub fn call_name(growth: &Growth) -> &'static str {
    let at = match growth {
        Growth::Name(_) => 0,
        Growth::Constant(..) => 1,
        Growth::Term(..) => 2,
        Growth::Node(..) => 3,
        Growth::Extend(..) => 4,
        Growth::Equality(..) => 5,
        Growth::Record(..) => 6,
        Growth::TracePoint(..) => 7,
    };
    CALL_NAMES[at]
}

impl End {
    pub fn of(growth: &Growth, book: &[u8], grown: &Grown) -> End {
        let refusal = grown.answer.refusal;
        let of = match refusal {
            0 => Of::Accepted,
            2..=6 | 28 if check(book).is_err() => Of::Received(refusal),
            3..=6 | 28 => Of::Grown(refusal),
            _ => Of::Call(refusal),
        };
        let call = call_name(growth);
        End { call, of }
    }

    /// Every end of every call.
    pub fn all() -> Vec<End> {
        let calls = CALL_NAMES.into_iter().zip(REFUSALS);
        let ends = calls.flat_map(|(call, (has_parent, grown))| {
            let received = RECEIVED.into_iter().map(Of::Received);
            let grown = grown.iter().map(|refusal| Of::Grown(*refusal));
            let of_call = [1, 10].into_iter().chain(has_parent.then_some(7));
            let of = received.chain(grown).chain(of_call.map(Of::Call));
            of.chain([Of::Accepted]).map(move |of| End { call, of })
        });
        ends.collect()
    }

    /// Every call accepted.
    pub fn accepted() -> Vec<End> {
        let mut ends = End::all();
        ends.retain(|end| end.of == Of::Accepted);
        ends
    }

    /// Every call refused for the book received.
    pub fn received() -> Vec<End> {
        let mut ends = End::all();
        ends.retain(|end| matches!(end.of, Of::Received(_)));
        ends
    }
}

pub type Ends = Met<End>;
