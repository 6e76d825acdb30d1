//! The library's writer of books, as safe functions. Rust's own borrows rule
//! out overlapping buffers, which is all that the exports ask for.

use leskofar_reference::book::TERM_FIELDS;

/// What a call answers: all 0 but the refusal where it is refused.
#[repr(C)]
#[derive(Clone, Copy, Debug, Default, PartialEq, Eq)]
pub struct Appended {
    pub refusal: u32,
    pub number: u32,
    pub length: u64,
}

/// The book that a call is given, and its buffers.
pub struct Buffers<'a> {
    pub book: &'a [u8],
    pub scratch: &'a mut [u8],
    pub new_book: &'a mut [u8],
}

/// Declares exports, each with its own arguments between those that all have.
macro_rules! exports {
    ($($name:ident($($argument:ident: $typ:ty),*);)*) => {
        mod exports {
            use super::Appended;

            extern "C" {
                $(pub fn $name(
                    book: *const u8,
                    book_len: usize,
                    scratch: *mut u8,
                    scratch_len: usize,
                    $($argument: $typ,)*
                    new_book: *mut u8,
                    new_book_len: usize,
                ) -> Appended;)*
            }
        }
    };
}

exports! {
    leskofar_append_name(text: *const u8, text_len: usize);
    leskofar_append_constant(name: u32, typ: u32);
    leskofar_append_term(
        kind: u32,
        field_1: u32,
        field_2: u32,
        field_3: u32,
        field_4: u32,
        field_5: u32,
        field_6: u32,
        first: *const u8,
        first_len: usize,
        second: *const u8,
        second_len: usize
    );
    leskofar_append_node(parent: u32, term: u32, trace: u32);
    leskofar_extend(parent: u32, term: u32, has_trace: u32, trace: *const u8, trace_len: usize);
    leskofar_extend_with_equality(parent: u32, constant: u32, term: u32);
    leskofar_record(
        parent: u32,
        term: u32,
        typ: u32,
        has_trace: u32,
        trace: *const u8,
        trace_len: usize
    );
    leskofar_record_trace_point(parent: u32, trace: *const u8, trace_len: usize);
}

/// Calls an export with the buffers around its own arguments. The slices are
/// valid for their lengths, and do not overlap.
macro_rules! call {
    ($name:ident, $b:ident, $($argument:expr),*) => {
        unsafe {
            exports::$name(
                $b.book.as_ptr(),
                $b.book.len(),
                $b.scratch.as_mut_ptr(),
                $b.scratch.len(),
                $($argument,)*
                $b.new_book.as_mut_ptr(),
                $b.new_book.len(),
            )
        }
    };
}

pub fn append_name(b: Buffers, text: &[u8]) -> Appended {
    call!(leskofar_append_name, b, text.as_ptr(), text.len())
}

pub fn append_constant(b: Buffers, name: u32, typ: u32) -> Appended {
    call!(leskofar_append_constant, b, name, typ)
}

pub fn append_term(b: Buffers, record: [u32; TERM_FIELDS], lists: [&[u8]; 2]) -> Appended {
    let [kind, one, two, three, four, five, six] = record;
    let [first, second] = lists;
    call!(
        leskofar_append_term,
        b,
        kind,
        one,
        two,
        three,
        four,
        five,
        six,
        first.as_ptr(),
        first.len(),
        second.as_ptr(),
        second.len()
    )
}

pub fn append_node(b: Buffers, parent: u32, term: u32, trace: u32) -> Appended {
    call!(leskofar_append_node, b, parent, term, trace)
}

/// A flag is any number, 0 or not 0.
pub fn extend(b: Buffers, parent: u32, term: u32, has_trace: u32, trace: &[u8]) -> Appended {
    call!(
        leskofar_extend,
        b,
        parent,
        term,
        has_trace,
        trace.as_ptr(),
        trace.len()
    )
}

pub fn extend_with_equality(b: Buffers, parent: u32, constant: u32, term: u32) -> Appended {
    call!(leskofar_extend_with_equality, b, parent, constant, term)
}

/// A flag is any number, 0 or not 0.
pub fn record(b: Buffers, [parent, term, typ]: [u32; 3], has_trace: u32, trace: &[u8]) -> Appended {
    call!(
        leskofar_record,
        b,
        parent,
        term,
        typ,
        has_trace,
        trace.as_ptr(),
        trace.len()
    )
}

pub fn record_trace_point(b: Buffers, parent: u32, trace: &[u8]) -> Appended {
    call!(
        leskofar_record_trace_point,
        b,
        parent,
        trace.as_ptr(),
        trace.len()
    )
}
