//! What lists of session calls met, so that a comparison can tell what it
//! never met.

use crate::calls::{Call, Left};
use crate::declared_once::Looked;
use crate::session_library::{PROVED, UNPROVED};
use crate::tally::Met;

const MOVED: &str = "moved";
const ASKED: &str = "asked";
const IS_PROVED: &str = "proved";
const CHECK_FAILED: &str = "check failed";
const MODEL_OWED: &str = "model owed";
const WITH_MODEL: &str = "unproved with a model";
const WITHOUT_MODEL: &str = "unproved without a model";
pub const RESULTS: [&str; 7] = [
    MOVED,
    ASKED,
    IS_PROVED,
    CHECK_FAILED,
    MODEL_OWED,
    WITH_MODEL,
    WITHOUT_MODEL,
];

/// The refusals of each call, in the order of `Seen::refusals`.
pub const REFUSALS: [(&str, &[u32]); 4] = [
    ("move", &[0, 1, 2, 3, 4, 5, 6, 28, 7, 20, 21, 9, 10]),
    ("ask", &[0, 1, 2, 3, 4, 5, 6, 28, 7, 20, 21, 9, 10]),
    ("reply", &[0, 1, 2, 3, 4, 5, 6, 28, 20, 22, 10]),
    ("model", &[0, 1, 2, 3, 4, 5, 6, 28, 20, 23, 8, 10]),
];

/// What the lists met.
#[derive(Default)]
pub struct Seen {
    pub refusals: [Met; REFUSALS.len()],
    pub results: Met<&'static str>,
    pub shapes: Met<&'static str>,
    pub images: Met<&'static str>,
    /// The bytes of reasons.
    pub reasons: Met<u8>,
    /// Accepted calls whose live levels were held against the book's.
    pub levels: usize,
    /// What the strict reader read: lines of text, and prints of goals.
    pub strict_lines: usize,
    pub strict_prints: usize,
    /// What the reader of strangers looked at.
    pub looked: Looked,
}

impl Seen {
    /// How much the strict reader read. Fails if that is nothing.
    pub fn read_strictly(&self) -> Result<String, String> {
        let [lines, prints] = [self.strict_lines, self.strict_prints];
        let said = format!("{lines} lines and {prints} prints read strictly");
        if lines > 0 && prints > 0 {
            Ok(said)
        } else {
            Err(said)
        }
    }

    pub fn add(&mut self, call: &Call, left: &Left) {
        let [refusal, result] = [left.answer.refusal, left.answer.result];
        let (at, name) = match call {
            Call::Move { .. } => (0, MOVED),
            Call::Ask { .. } => (1, ASKED),
            Call::Reply { .. } if result == PROVED => (2, IS_PROVED),
            Call::Reply { .. } if result == UNPROVED => (2, CHECK_FAILED),
            Call::Reply { .. } => (2, MODEL_OWED),
            Call::Model { has_model: 0, .. } => (3, WITHOUT_MODEL),
            Call::Model { .. } => (3, WITH_MODEL),
        };
        self.refusals[at].add(refusal);
        if left.accepted() {
            self.results.add(name);
            for byte in left.reason() {
                self.reasons.add(*byte);
            }
        }
    }
}
