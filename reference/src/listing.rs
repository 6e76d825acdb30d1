//! The call that lists what is to be proved, in B3's notation: `ToString`,
//! `Print` and `PrintProofObligation` of RSolver.dfy. The Dafny functions give
//! strings; these write them, since a listing may be longer than memory.

use crate::book_test::open;
use crate::program::{Program, RExpr, ROperator};
use crate::refusal::{refuse_if, NOT_IN_BOOK};
use crate::sink::Sink;

/// What stands between the parts of a list.
const SEPARATOR: &[u8] = b", ";

/// Prints the proof obligation of a node and a goal, any term of the book:
/// refusals 1 to 6, 28, 7 and 10. Accepted, the text stands at the buffer's begin and
/// its length is returned; refused, the buffer is untouched.
pub fn listing(
    book: &[u8],
    scratch: &mut [u8],
    node: u32,
    goal: u32,
    text: &mut [u8],
) -> Result<usize, u32> {
    let program = open(book, scratch)?;
    let in_book = program.has_node(node) && program.has_term(goal);
    refuse_if(!in_book, NOT_IN_BOOK)?;
    let mut sink = Sink::new(text.len());
    print_proof_obligation(&program, node as usize, goal as usize, &mut sink);
    sink.deliver(text)
}

/// The term as B3 would write it, every name as the book has it.
fn to_string(program: &Program, expr: usize, sink: &mut Sink) {
    match &program.terms[expr] {
        RExpr::Boolean(true) => sink.write(b"true"),
        RExpr::Boolean(false) => sink.write(b"false"),
        RExpr::Integer(x) => sink.write(x.to_string().as_bytes()),
        RExpr::CustomLiteral { s, typ } => custom_literal_to_string(s, typ.text(program), sink),
        RExpr::Id(v) => sink.write(program.constants[*v].name),
        RExpr::FuncAppl { op, args } => {
            sink.write(operator_name(program, op));
            sink.write(b"(");
            rexpr_list_to_string(program, args, sink);
            sink.write(b")");
        }
        RExpr::IfThenElse { guard, thn, els } => {
            sink.write(b"(if ");
            to_string(program, *guard, sink);
            sink.write(b" ");
            to_string(program, *thn, sink);
            sink.write(b" else ");
            to_string(program, *els, sink);
            sink.write(b")");
        }
        RExpr::LetExpr { v, rhs, body } => {
            sink.write(b"(val ");
            bound_var_to_string(program, *v, sink);
            sink.write(b" := ");
            to_string(program, *rhs, sink);
            body_to_string(program, *body, sink);
        }
        RExpr::QuantifierExpr {
            univ,
            vv,
            patterns,
            body,
        } => {
            sink.write(if *univ { b"(forall " } else { b"(exists " });
            bound_vars_to_string(program, vv, sink);
            patterns_to_string(program, patterns, sink);
            body_to_string(program, *body, sink);
        }
    }
}

/// The body that ends a let or a quantifier.
fn body_to_string(program: &Program, body: usize, sink: &mut Sink) {
    sink.write(b" ");
    to_string(program, body, sink);
    sink.write(b")");
}

/// The Dafny `ToString` of an operator.
fn operator_name<'b>(program: &Program<'b>, op: &ROperator<'b>) -> &'b [u8] {
    match op {
        ROperator::BuiltInOperator(name) => name,
        ROperator::UserDefinedFunction(function) => program.functions[*function].name,
    }
}

/// PrintUtil is not among the Dafny files; document 02 says what stands here.
fn custom_literal_to_string(s: &[u8], typ: &[u8], sink: &mut Sink) {
    sink.write(s);
    sink.write(b":");
    sink.write(typ);
}

fn bound_vars_to_string(program: &Program, vv: &[usize], sink: &mut Sink) {
    comma(vv, sink, |v, sink| bound_var_to_string(program, v, sink));
}

/// A let's variable is written in the same way.
fn bound_var_to_string(program: &Program, v: usize, sink: &mut Sink) {
    let constant = &program.constants[v];
    sink.write(constant.name);
    sink.write(b": ");
    sink.write(constant.typ.text(program));
}

fn rexpr_list_to_string(program: &Program, exprs: &[usize], sink: &mut Sink) {
    comma(exprs, sink, |expr, sink| to_string(program, expr, sink));
}

fn patterns_to_string(program: &Program, patterns: &[usize], sink: &mut Sink) {
    for pattern in patterns {
        sink.write(b" pattern ");
        rexpr_list_to_string(program, &program.patterns[*pattern].exprs, sink);
    }
}

/// `Comma`, and `SeqToString` with its separator: the parts in their order,
/// with the separator between them only.
fn comma(parts: &[usize], sink: &mut Sink, mut part_to_string: impl FnMut(usize, &mut Sink)) {
    for (k, part) in parts.iter().enumerate() {
        if k > 0 {
            sink.write(SEPARATOR);
        }
        part_to_string(*part, sink);
    }
}

/// The premises from the root, which has none, down to the context.
fn print(program: &Program, context: usize, sink: &mut Sink) {
    let Some(node) = program.node(context) else {
        return;
    };
    print(program, node.parent, sink);
    print_line(program, node.expr, sink);
}

fn print_line(program: &Program, expr: usize, sink: &mut Sink) {
    sink.write(b"  ");
    to_string(program, expr, sink);
    sink.write(b"\n");
}

pub fn print_proof_obligation(program: &Program, context: usize, expr: usize, sink: &mut Sink) {
    sink.write(b"----- Proof obligation:\n");
    print(program, context, sink);
    sink.write(b"  |-\n");
    print_line(program, expr, sink);
}
