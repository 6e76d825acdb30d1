//! What a term has in it, so that a comparison can tell what it never met.

use leskofar_reference::lower::TAG;
use leskofar_reference::program::{Program, RExpr, ROperator};
use leskofar_reference::symbols::symbol_text;

pub const SHAPES: [&str; 21] = [
    "boolean",
    "integer",
    "negative integer",
    "least integer",
    "largest integer",
    "literal",
    "%tag",
    "constant",
    "constant between bars",
    "constant that gets bars",
    "built-in operator",
    "function",
    "function between bars",
    "function that gets bars",
    "empty operator name",
    "no arguments",
    "if-then-else",
    "let",
    "quantifier",
    "quantifier without variables",
    "empty pattern",
];

/// The bars around a name that is printed.
enum Bars {
    Own,
    Added,
    None,
}

fn bars(name: &[u8]) -> Bars {
    if name.starts_with(b"|") {
        Bars::Own
    } else if symbol_text(name) != name {
        Bars::Added
    } else {
        Bars::None
    }
}

/// Visits the shapes of every part of a term.
pub fn visit(program: &Program, term: usize, see: &mut impl FnMut(&'static str)) {
    match &program.terms[term] {
        RExpr::Boolean(_) => see("boolean"),
        RExpr::Integer(i64::MIN) => see("least integer"),
        RExpr::Integer(i64::MAX) => see("largest integer"),
        RExpr::Integer(..0) => see("negative integer"),
        RExpr::Integer(_) => see("integer"),
        RExpr::CustomLiteral { s, .. } => see(if *s == TAG { "%tag" } else { "literal" }),
        RExpr::Id(v) => see(match bars(program.constants[*v].name) {
            Bars::Own => "constant between bars",
            Bars::Added => "constant that gets bars",
            Bars::None => "constant",
        }),
        RExpr::FuncAppl { op, args } => {
            match op {
                ROperator::BuiltInOperator(b"") => see("empty operator name"),
                ROperator::BuiltInOperator(_) => see("built-in operator"),
                ROperator::UserDefinedFunction(f) => see(match bars(program.functions[*f].name) {
                    Bars::Own => "function between bars",
                    Bars::Added => "function that gets bars",
                    Bars::None => "function",
                }),
            }
            if args.is_empty() {
                see("no arguments");
            }
        }
        RExpr::IfThenElse { .. } => see("if-then-else"),
        RExpr::LetExpr { .. } => see("let"),
        RExpr::QuantifierExpr { vv, .. } if vv.is_empty() => see("quantifier without variables"),
        RExpr::QuantifierExpr { patterns, .. } => {
            see("quantifier");
            if patterns
                .iter()
                .any(|pattern| program.patterns[*pattern].exprs.is_empty())
            {
                see("empty pattern");
            }
        }
    }
    for child in program.children(term) {
        visit(program, child, see);
    }
}
