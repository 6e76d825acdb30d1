//! The library's turns between the two kinds of image, as safe functions.
//! Rust's own borrows rule out overlapping buffers, which is all that the
//! exports ask for.

mod exports {
    extern "C" {
        pub fn leskofar_widen(
            book: *const u8,
            book_len: usize,
            scratch: *mut u8,
            scratch_len: usize,
            narrow: *const u8,
            narrow_len: usize,
            image: *mut u8,
            image_len: usize,
        ) -> u32;

        pub fn leskofar_narrow(
            book: *const u8,
            book_len: usize,
            scratch: *mut u8,
            scratch_len: usize,
            image: *const u8,
            image_len: usize,
            narrow: *mut u8,
            narrow_len: usize,
        ) -> u32;
    }
}

/// 0, or the number of the refusal.
pub fn widen(book: &[u8], scratch: &mut [u8], narrow: &[u8], image: &mut [u8]) -> u32 {
    // The slices are valid for their lengths, and do not overlap.
    unsafe {
        exports::leskofar_widen(
            book.as_ptr(),
            book.len(),
            scratch.as_mut_ptr(),
            scratch.len(),
            narrow.as_ptr(),
            narrow.len(),
            image.as_mut_ptr(),
            image.len(),
        )
    }
}

/// 0, or the number of the refusal.
pub fn narrow(book: &[u8], scratch: &mut [u8], image: &[u8], narrow: &mut [u8]) -> u32 {
    // The slices are valid for their lengths, and do not overlap.
    unsafe {
        exports::leskofar_narrow(
            book.as_ptr(),
            book.len(),
            scratch.as_mut_ptr(),
            scratch.len(),
            image.as_ptr(),
            image.len(),
            narrow.as_mut_ptr(),
            narrow.len(),
        )
    }
}
