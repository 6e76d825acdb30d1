//! Every call with scratches of every length that matters, which hold random
//! bytes: a scratch decides between refusal 1 and any other answer, and nothing
//! else.

use crate::made_books::{faulty_books, good_books};
use crate::scratch_bytes::LENGTHS;
use crate::scratch_calls::Lent;
use crate::scratch_cases::{plain_calls, stage, stage_calls, tagged};
use crate::tally::{Met, Tally};
use leskofar_reference::book_test::check;
use leskofar_reference::random::Random;
use leskofar_reference::refusal::SCRATCH_SHORT;
use std::fmt::{Display, Formatter};

const SEED: u64 = 0x7363_7261;
/// The least that is taken, apart from what the reference calls so.
const TAKEN: usize = 128;

/// Every call, with what may come behind the refusals of its book.
const CALLS: [(&str, &[u32]); 20] = [
    ("book_test", &[]),
    ("print", &[7, 10]),
    ("trace", &[7, 10]),
    ("listing", &[7, 10]),
    ("nodes_test", &[7]),
    ("audit", &[7, 9, 25, 26, 27]),
    ("move", &[7, 9, 10, 20, 21]),
    ("ask", &[7, 9, 10, 20, 21]),
    ("reply", &[10, 20, 22]),
    ("model", &[8, 10, 20, 23]),
    ("widen", &[20]),
    ("narrow", &[20, 24]),
    ("append_name", &[10]),
    ("append_constant", &[10]),
    ("append_term", &[10]),
    ("append_node", &[7, 10]),
    ("extend", &[7, 10]),
    ("extend_with_equality", &[7, 10]),
    ("record", &[7, 10]),
    ("record_trace_point", &[7, 10]),
];
/// What every call is refused for, by its scratch and by its book.
const OF_SCRATCH_AND_BOOK: [u32; 7] = [1, 2, 3, 4, 5, 6, 28];

/// How a call ended.
#[derive(Clone, Copy, PartialEq, Eq, PartialOrd, Ord)]
struct End {
    call: &'static str,
    refusal: u32,
}

impl Display for End {
    fn fmt(&self, f: &mut Formatter) -> std::fmt::Result {
        write!(f, "{} {}", self.call, self.refusal)
    }
}

/// Every call with some answers, which may be those that come behind.
fn ends(answers: impl Fn(&[u32]) -> Vec<u32>) -> Vec<End> {
    let mut ends = Vec::new();
    for (call, behind) in CALLS {
        let answers = answers(behind).into_iter();
        ends.extend(answers.map(|refusal| End { call, refusal }));
    }
    ends
}

/// What scratches hold, and how calls ended.
struct Scratches {
    random: Random,
    met: Met<End>,
}

impl Scratches {
    fn new() -> Scratches {
        Scratches {
            random: Random::new(SEED),
            met: Met::default(),
        }
    }

    /// A call with a scratch of each length: 1 where it is too short, else one
    /// answer with all of them, which may be known.
    fn compare(
        &mut self,
        call: &Lent,
        book: &[u8],
        has_room: bool,
        mut known: Option<u32>,
    ) -> Result<(), String> {
        for length in LENGTHS {
            let scratch = self.random.bytes(length);
            let refusal = call.compare(book, &scratch, has_room)?;
            let call = call.name();
            self.met.add(End { call, refusal });
            let is_known = if length < TAKEN {
                refusal == SCRATCH_SHORT
            } else {
                refusal != SCRATCH_SHORT && refusal == *known.get_or_insert(refusal)
            };
            if !is_known {
                return Err(format!("{call} {refusal} with {length} bytes, {book:?}"));
            }
        }
        Ok(())
    }
}

pub fn run(tally: &mut Tally) {
    tally.group("scratch, every call on good books", || {
        let mut scratches = Scratches::new();
        for m in good_books() {
            for call in plain_calls() {
                scratches.compare(&call, &m.book(), true, None)?;
            }
        }
        for stage in [stage(), tagged()] {
            let book = stage.maker.book();
            for call in stage_calls(&stage)? {
                for has_room in [true, false] {
                    scratches.compare(&call, &book, has_room, None)?;
                }
            }
        }
        let known = ends(|behind| [&[0, SCRATCH_SHORT], behind].concat());
        // A list or a script may be too long, and a grown book bad.
        let may = ends(|_| OF_SCRATCH_AND_BOOK.to_vec());
        scratches.met.only_or(&known, &may)
    });
    tally.group("scratch, every call on books that are refused", || {
        let mut scratches = Scratches::new();
        for book in faulty_books() {
            // One of them has no fault.
            let Err(refusal) = check(&book) else {
                continue;
            };
            for call in plain_calls() {
                scratches.compare(&call, &book, true, Some(refusal))?;
            }
        }
        let known = ends(|_| OF_SCRATCH_AND_BOOK.to_vec());
        scratches.met.only(&known)
    });
}
