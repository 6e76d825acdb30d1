//! The library's audit of a script, as a safe function. Rust's own borrows rule
//! out overlapping buffers, which is all that the export asks for.

/// What the call answers: all 0 where the script is accepted; the first
/// check-sat that differs, counted from 1; or the refusal.
#[repr(C)]
#[derive(Clone, Copy, Debug, Default, PartialEq, Eq)]
pub struct Audited {
    pub refusal: u32,
    pub differs: u32,
}

mod exports {
    use super::Audited;

    extern "C" {
        pub fn leskofar_audit(
            book: *const u8,
            book_len: usize,
            scratch: *mut u8,
            scratch_len: usize,
            questions: *const u8,
            questions_len: usize,
            script: *const u8,
            script_len: usize,
        ) -> Audited;
    }
}

pub fn audit(book: &[u8], scratch: &mut [u8], questions: &[u8], script: &[u8]) -> Audited {
    // The slices are valid for their lengths, and do not overlap.
    unsafe {
        exports::leskofar_audit(
            book.as_ptr(),
            book.len(),
            scratch.as_mut_ptr(),
            scratch.len(),
            questions.as_ptr(),
            questions.len(),
            script.as_ptr(),
            script.len(),
        )
    }
}
