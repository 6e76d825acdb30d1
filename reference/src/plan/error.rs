//! Where a text is bad, what was expected there and what was found.

use std::fmt;

/// A place in a text; both numbers count from 1, a column is a byte.
#[derive(Clone, Copy, Debug, PartialEq, Eq)]
pub struct Position {
    pub line: usize,
    pub column: usize,
}

impl Position {
    pub const START: Position = Position { line: 1, column: 1 };
}

impl fmt::Display for Position {
    fn fmt(&self, f: &mut fmt::Formatter) -> fmt::Result {
        write!(f, "line {}, column {}", self.line, self.column)
    }
}

#[derive(Clone, Debug, PartialEq, Eq)]
pub struct PlanError {
    pub at: Position,
    pub expected: String,
    pub found: String,
}

impl fmt::Display for PlanError {
    fn fmt(&self, f: &mut fmt::Formatter) -> fmt::Result {
        let PlanError {
            at,
            expected,
            found,
        } = self;
        write!(f, "{at}: expected {expected}, found {found}")
    }
}

impl std::error::Error for PlanError {}

/// Boxed, since terms nest a thousand deep and each level of the parser and
/// the binder keeps some results on the stack.
pub type Result<T> = std::result::Result<T, Box<PlanError>>;

/// The error that something else than the expected was found.
pub fn refuse<T>(at: Position, expected: impl Into<String>, found: impl Into<String>) -> Result<T> {
    Err(Box::new(PlanError {
        at,
        expected: expected.into(),
        found: found.into(),
    }))
}
