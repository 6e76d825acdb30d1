//! A small deterministic generator (splitmix64).

#[derive(Clone, Debug)]
pub struct Random {
    state: u64,
}

/// Chances, for `one_in`.
pub const OFTEN: usize = 2;
pub const AT_TIMES: usize = 4;
pub const RARELY: usize = 8;
pub const HARDLY_EVER: usize = 64;

/// The constants of splitmix64.
const STEP: u64 = 0x9E37_79B9_7F4A_7C15;
const MIX: [(u32, u64); 2] = [(30, 0xBF58_476D_1CE4_E5B9), (27, 0x94D0_49BB_1331_11EB)];
const LAST_SHIFT: u32 = 31;

impl Random {
    pub fn new(seed: u64) -> Random {
        Random { state: seed }
    }

    pub fn number(&mut self) -> u64 {
        self.state = self.state.wrapping_add(STEP);
        let mut mixed = self.state;
        for (shift, factor) in MIX {
            mixed = (mixed ^ (mixed >> shift)).wrapping_mul(factor);
        }
        mixed ^ (mixed >> LAST_SHIFT)
    }

    /// A number below `bound`, which is not 0.
    pub fn below(&mut self, bound: usize) -> usize {
        (self.number() % bound as u64) as usize
    }

    pub fn up_to(&mut self, most: usize) -> usize {
        self.below(most + 1)
    }

    /// True once in `n` times.
    pub fn one_in(&mut self, n: usize) -> bool {
        self.below(n) == 0
    }

    pub fn pick<T: Copy>(&mut self, from: &[T]) -> T {
        from[self.below(from.len())]
    }

    /// Bytes of every value.
    pub fn bytes(&mut self, length: usize) -> Vec<u8> {
        (0..length).map(|_| self.number() as u8).collect()
    }
}
