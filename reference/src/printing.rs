//! The printing calls: a term, and a node's trace. Refusals 1 to 6,
//! 28, 7 and 10.

use crate::book_test::open;
use crate::lower::to_sexpr;
use crate::program::Program;
use crate::refusal::{refuse_if, NOT_IN_BOOK};
use crate::sexpr::SExprPrintConfig;
use crate::sink::Sink;

/// Prints a term. Accepted, the text stands at the buffer's begin and its
/// length is returned; refused, the buffer is untouched.
pub fn print(
    book: &[u8],
    scratch: &mut [u8],
    term: u32,
    tag: u64,
    newlines: bool,
    indent: u64,
    text: &mut [u8],
) -> Result<usize, u32> {
    let program = open(book, scratch)?;
    refuse_if(!program.has_term(term), NOT_IN_BOOK)?;
    let config = SExprPrintConfig { newlines, indent };
    let mut sink = Sink::new(text.len());
    to_sexpr(&program, term as usize, tag).print(config, &mut sink);
    sink.deliver(text)
}

/// Prints a node's trace, from the root down; buffers as in `print`.
pub fn trace(book: &[u8], scratch: &mut [u8], node: u32, text: &mut [u8]) -> Result<usize, u32> {
    let program = open(book, scratch)?;
    refuse_if(!program.has_node(node), NOT_IN_BOOK)?;
    let mut sink = Sink::new(text.len());
    print_trace(&program, node as usize, &mut sink);
    sink.deliver(text)
}

fn print_trace(program: &Program, node: usize, sink: &mut Sink) {
    let Some(context) = program.node(node) else {
        return;
    };
    print_trace(program, context.parent, sink);
    if let Some(trace_string) = context.trace_string {
        sink.write(b"  ");
        sink.write(trace_string);
        sink.write(b"\n");
    }
}
