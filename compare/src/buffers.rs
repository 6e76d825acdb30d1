//! Buffers with bytes behind them that no call may touch.

const BEHIND: usize = 16;

#[derive(PartialEq)]
pub struct Fenced {
    bytes: Vec<u8>,
    length: usize,
}

impl Fenced {
    /// A buffer whose every byte differs from its neighbours.
    pub fn new(length: usize) -> Fenced {
        let bytes = (0..length + BEHIND).map(|at| (at as u8) | 0x80).collect();
        Fenced { bytes, length }
    }

    pub fn holding(content: &[u8]) -> Fenced {
        let mut buffer = Fenced::new(content.len());
        buffer.room().copy_from_slice(content);
        buffer
    }

    /// What a call is given.
    pub fn room(&mut self) -> &mut [u8] {
        &mut self.bytes[..self.length]
    }

    pub fn content(&self) -> &[u8] {
        &self.bytes[..self.length]
    }
}
