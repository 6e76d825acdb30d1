//! SmtEngines.dfy: the commands' texts, each a line ended by byte 0x0A.

use crate::sexpr::{SExpr, SExprPrintConfig};
use crate::sink::Sink;

pub const LINE_END: u8 = 0x0A;
/// SMT-LIB 2.6 decides here over the Dafny constants, the first departure:
/// its push and pop have a numeral.
pub const CMD_PUSH: &[u8] = b"(push 1)";
pub const CMD_POP: &[u8] = b"(pop 1)";
pub const CMD_CHECK_SAT: &[u8] = b"(check-sat)";
pub const CMD_GET_MODEL: &[u8] = b"(get-model)";

/// Sends a command without parts.
pub fn send(command: &[u8], sink: &mut Sink) {
    sink.write(command);
    sink.write(&[LINE_END]);
}

pub fn assume(assumed: &SExpr, sink: &mut Sink) {
    sink.write(b"(assert ");
    assumed.print(SExprPrintConfig::ONE_LINE, sink);
    send(b")", sink);
}

/// The name is sent as it comes: a symbol, or a literal's name, which has bars
/// of its own.
pub fn declare_function(name: &[u8], inputs: &SExpr, output: &SExpr, sink: &mut Sink) {
    sink.write(b"(declare-fun ");
    sink.write(name);
    sink.write(b" ");
    inputs.print(SExprPrintConfig::ONE_LINE, sink);
    sink.write(b" ");
    output.print(SExprPrintConfig::ONE_LINE, sink);
    send(b")", sink);
}

pub fn declare_sort(name: &[u8], sink: &mut Sink) {
    sink.write(b"(declare-sort ");
    sink.write(name);
    send(b" 0)", sink);
}
