//! A bounded sink of text: it counts the whole length, saturating, and keeps
//! only what fits its limit.

use crate::refusal::TOO_LONG;

pub struct Sink {
    limit: usize,
    kept: Vec<u8>,
    length: u64,
}

impl Sink {
    /// A sink for a buffer of `limit` bytes; with 0 it only measures.
    pub fn new(limit: usize) -> Sink {
        Sink {
            limit,
            kept: Vec::new(),
            length: 0,
        }
    }

    pub fn unlimited() -> Sink {
        Sink::new(usize::MAX)
    }

    pub fn write(&mut self, bytes: &[u8]) {
        let fitting = bytes.len().min(self.limit - self.kept.len());
        self.kept.extend_from_slice(&bytes[..fitting]);
        self.length = self.length.saturating_add(bytes.len() as u64);
    }

    pub fn spaces(&mut self, count: u64) {
        let free = self.limit - self.kept.len();
        let fitting = usize::try_from(count).unwrap_or(free).min(free);
        self.kept.resize(self.kept.len() + fitting, b' ');
        self.length = self.length.saturating_add(count);
    }

    /// The length of the whole text, or the most that a u64 holds.
    pub fn length(&self) -> u64 {
        self.length
    }

    /// The text whole, or None if it is longer than the limit.
    pub fn text(&self) -> Option<&[u8]> {
        (self.length <= self.limit as u64).then_some(&self.kept[..])
    }

    /// Copies the text to the begin of its buffer, which has the limit's size,
    /// and gives its length; or refuses 10 and leaves the buffer as it is.
    pub fn deliver(&self, buffer: &mut [u8]) -> Result<usize, u32> {
        let text = self.text().ok_or(TOO_LONG)?;
        buffer[..text.len()].copy_from_slice(text);
        Ok(text.len())
    }

    /// Empties the sink and gives what it kept.
    pub fn take(&mut self) -> Vec<u8> {
        self.length = 0;
        std::mem::take(&mut self.kept)
    }
}
