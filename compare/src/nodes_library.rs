//! The library's test of a list of nodes, as a safe function. Rust's own
//! borrows rule out overlapping buffers, which is all that the export asks
//! for.

/// What the call answers: all 0 but the refusal where it is refused.
#[repr(C)]
#[derive(Clone, Copy, Debug, Default, PartialEq, Eq)]
pub struct NodesTested {
    pub refusal: u32,
    pub result: u32,
    pub position: u64,
}

/// The results.
pub const PASS: u32 = 0;
pub const FAILS: u32 = 1;

mod exports {
    use super::NodesTested;

    extern "C" {
        pub fn leskofar_nodes_test(
            book: *const u8,
            book_len: usize,
            scratch: *mut u8,
            scratch_len: usize,
            nodes: *const u8,
            nodes_len: usize,
        ) -> NodesTested;
    }
}

pub fn nodes_test(book: &[u8], scratch: &mut [u8], nodes: &[u8]) -> NodesTested {
    // The slices are valid for their lengths, and do not overlap.
    unsafe {
        exports::leskofar_nodes_test(
            book.as_ptr(),
            book.len(),
            scratch.as_mut_ptr(),
            scratch.len(),
            nodes.as_ptr(),
            nodes.len(),
        )
    }
}
