//! Why a text is refused.

use std::fmt::{Display, Formatter};

#[derive(Clone, Debug, PartialEq, Eq)]
pub struct Refused {
    /// How many bytes stand before the place.
    pub at: usize,
    pub reason: String,
}

pub type Result<T> = std::result::Result<T, Refused>;

pub fn refuse<T>(at: usize, reason: impl Into<String>) -> Result<T> {
    let reason = reason.into();
    Err(Refused { at, reason })
}

/// A piece of text as a reason shows it.
pub fn shown(text: &[u8]) -> String {
    format!("`{}`", text.escape_ascii())
}

impl Display for Refused {
    fn fmt(&self, f: &mut Formatter) -> std::fmt::Result {
        write!(f, "byte {}: {}", self.at, self.reason)
    }
}

impl std::error::Error for Refused {}
