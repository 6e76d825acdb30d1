//! The library's exports on a session's image, as safe functions. Rust's own
//! borrows rule out overlapping buffers, which is all that the exports ask
//! for.

/// What a session call answers: all 0 but the refusal where it is refused.
#[repr(C)]
#[derive(Clone, Copy, Debug, Default, PartialEq, Eq)]
pub struct Answer {
    pub refusal: u32,
    pub result: u32,
    pub text: u64,
    pub reason: u64,
}

/// The results.
pub const WRITTEN: u32 = 0;
pub const PROVED: u32 = 1;
pub const UNPROVED: u32 = 2;

/// The buffers of a session call; move and ask leave the reason alone.
pub struct Buffers<'a> {
    pub scratch: &'a mut [u8],
    pub image: &'a mut [u8],
    pub text: &'a mut [u8],
    pub reason: &'a mut [u8],
}

mod exports {
    use super::Answer;

    extern "C" {
        pub fn leskofar_fresh(image: *mut u8, image_len: usize) -> u32;

        pub fn leskofar_move(
            book: *const u8,
            book_len: usize,
            scratch: *mut u8,
            scratch_len: usize,
            image: *mut u8,
            image_len: usize,
            node: u32,
            text: *mut u8,
            text_len: usize,
        ) -> Answer;

        pub fn leskofar_ask(
            book: *const u8,
            book_len: usize,
            scratch: *mut u8,
            scratch_len: usize,
            image: *mut u8,
            image_len: usize,
            node: u32,
            goal: u32,
            text: *mut u8,
            text_len: usize,
        ) -> Answer;

        pub fn leskofar_reply(
            book: *const u8,
            book_len: usize,
            scratch: *mut u8,
            scratch_len: usize,
            image: *mut u8,
            image_len: usize,
            ok: u32,
            reply: *const u8,
            reply_len: usize,
            text: *mut u8,
            text_len: usize,
            reason: *mut u8,
            reason_len: usize,
        ) -> Answer;

        pub fn leskofar_model(
            book: *const u8,
            book_len: usize,
            scratch: *mut u8,
            scratch_len: usize,
            image: *mut u8,
            image_len: usize,
            reply: *const u8,
            reply_len: usize,
            has_model: u32,
            model: *const u8,
            model_len: usize,
            text: *mut u8,
            text_len: usize,
            reason: *mut u8,
            reason_len: usize,
        ) -> Answer;
    }
}

/// 0, or 20 where the image is not of its size.
pub fn fresh(image: &mut [u8]) -> u32 {
    // The slice is valid for its length.
    unsafe { exports::leskofar_fresh(image.as_mut_ptr(), image.len()) }
}

pub fn move_to(book: &[u8], b: &mut Buffers, node: u32) -> Answer {
    // The slices are valid for their lengths, and do not overlap.
    unsafe {
        exports::leskofar_move(
            book.as_ptr(),
            book.len(),
            b.scratch.as_mut_ptr(),
            b.scratch.len(),
            b.image.as_mut_ptr(),
            b.image.len(),
            node,
            b.text.as_mut_ptr(),
            b.text.len(),
        )
    }
}

pub fn ask(book: &[u8], b: &mut Buffers, node: u32, goal: u32) -> Answer {
    // The slices are valid for their lengths, and do not overlap.
    unsafe {
        exports::leskofar_ask(
            book.as_ptr(),
            book.len(),
            b.scratch.as_mut_ptr(),
            b.scratch.len(),
            b.image.as_mut_ptr(),
            b.image.len(),
            node,
            goal,
            b.text.as_mut_ptr(),
            b.text.len(),
        )
    }
}

/// A flag is any number, 0 or not 0.
pub fn reply(book: &[u8], b: &mut Buffers, ok: u32, reply: &[u8]) -> Answer {
    // The slices are valid for their lengths, and do not overlap.
    unsafe {
        exports::leskofar_reply(
            book.as_ptr(),
            book.len(),
            b.scratch.as_mut_ptr(),
            b.scratch.len(),
            b.image.as_mut_ptr(),
            b.image.len(),
            ok,
            reply.as_ptr(),
            reply.len(),
            b.text.as_mut_ptr(),
            b.text.len(),
            b.reason.as_mut_ptr(),
            b.reason.len(),
        )
    }
}

/// A flag is any number, 0 or not 0.
pub fn model(book: &[u8], b: &mut Buffers, reply: &[u8], has_model: u32, model: &[u8]) -> Answer {
    // The slices are valid for their lengths, and do not overlap.
    unsafe {
        exports::leskofar_model(
            book.as_ptr(),
            book.len(),
            b.scratch.as_mut_ptr(),
            b.scratch.len(),
            b.image.as_mut_ptr(),
            b.image.len(),
            reply.as_ptr(),
            reply.len(),
            has_model,
            model.as_ptr(),
            model.len(),
            b.text.as_mut_ptr(),
            b.text.len(),
            b.reason.as_mut_ptr(),
            b.reason.len(),
        )
    }
}
