//! The library's exports, as safe functions. Rust's own borrows rule out
//! overlapping buffers, which is all that the exports ask for.

/// What a printing call answers: 0 and the text's length, or the refusal's
/// number and 0.
#[repr(C)]
#[derive(Clone, Copy, Debug, PartialEq, Eq)]
pub struct Printed {
    pub refusal: u32,
    pub length: u64,
}

mod exports {
    use super::Printed;

    extern "C" {
        pub fn leskofar_book_test(
            book: *const u8,
            book_len: usize,
            scratch: *mut u8,
            scratch_len: usize,
        ) -> u32;

        pub fn leskofar_print(
            book: *const u8,
            book_len: usize,
            scratch: *mut u8,
            scratch_len: usize,
            term: u32,
            tag: u64,
            newlines: u32,
            indent: u64,
            text: *mut u8,
            text_len: usize,
        ) -> Printed;

        pub fn leskofar_trace(
            book: *const u8,
            book_len: usize,
            scratch: *mut u8,
            scratch_len: usize,
            node: u32,
            text: *mut u8,
            text_len: usize,
        ) -> Printed;

        pub fn leskofar_listing(
            book: *const u8,
            book_len: usize,
            scratch: *mut u8,
            scratch_len: usize,
            node: u32,
            goal: u32,
            text: *mut u8,
            text_len: usize,
        ) -> Printed;

        pub fn leskofar_operator(code: u32, text: *mut u8, text_len: usize) -> Printed;
    }
}

/// 0, or the number of the refusal.
pub fn book_test(book: &[u8], scratch: &mut [u8]) -> u32 {
    // Both slices are valid for their lengths, and do not overlap.
    unsafe {
        exports::leskofar_book_test(
            book.as_ptr(),
            book.len(),
            scratch.as_mut_ptr(),
            scratch.len(),
        )
    }
}

/// A flag is any number, 0 or not 0.
pub fn print(
    book: &[u8],
    scratch: &mut [u8],
    term: u32,
    tag: u64,
    newlines: u32,
    indent: u64,
    text: &mut [u8],
) -> Printed {
    // The slices are valid for their lengths, and do not overlap.
    unsafe {
        exports::leskofar_print(
            book.as_ptr(),
            book.len(),
            scratch.as_mut_ptr(),
            scratch.len(),
            term,
            tag,
            newlines,
            indent,
            text.as_mut_ptr(),
            text.len(),
        )
    }
}

pub fn trace(book: &[u8], scratch: &mut [u8], node: u32, text: &mut [u8]) -> Printed {
    // The slices are valid for their lengths, and do not overlap.
    unsafe {
        exports::leskofar_trace(
            book.as_ptr(),
            book.len(),
            scratch.as_mut_ptr(),
            scratch.len(),
            node,
            text.as_mut_ptr(),
            text.len(),
        )
    }
}

pub fn listing(book: &[u8], scratch: &mut [u8], node: u32, goal: u32, text: &mut [u8]) -> Printed {
    // The slices are valid for their lengths, and do not overlap.
    unsafe {
        exports::leskofar_listing(
            book.as_ptr(),
            book.len(),
            scratch.as_mut_ptr(),
            scratch.len(),
            node,
            goal,
            text.as_mut_ptr(),
            text.len(),
        )
    }
}

pub fn operator(code: u32, text: &mut [u8]) -> Printed {
    // The slice is valid for its length.
    unsafe { exports::leskofar_operator(code, text.as_mut_ptr(), text.len()) }
}
