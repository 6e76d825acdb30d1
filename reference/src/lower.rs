//! RSolver.dfy's lowering: from a term to an S-expression.

use crate::program::{Program, RExpr, ROperator, SType};
use crate::sexpr::SExpr;
use std::borrow::Cow;

/// The literal text that the mapper replaces by a number.
pub const TAG: &[u8] = b"%tag";

/// The Dafny `ToSExpr`, its literal mapper being the number for `%tag`. The
/// larger cases are functions of their own: terms nest a thousand deep, and
/// the stack is to hold them.
pub fn to_sexpr<'b>(program: &Program<'b>, term: usize, tag: u64) -> SExpr<'b> {
    match &program.terms[term] {
        RExpr::Boolean(b) => SExpr::boolean(*b),
        RExpr::Integer(x) => SExpr::integer(*x),
        RExpr::CustomLiteral { s, typ } => literal_to_sexpr(program, s, *typ, tag),
        RExpr::Id(v) => SExpr::symbol(program.constants[*v].name),
        RExpr::FuncAppl { op, args } => SExpr::func_appl(
            operator_to_sexpr(program, op),
            to_sexprs(program, args, tag),
        ),
        RExpr::IfThenElse { guard, thn, els } => {
            let args = to_sexprs(program, &[*guard, *thn, *els], tag);
            SExpr::func_appl(SExpr::name(b"ite"), args)
        }
        RExpr::LetExpr { v, rhs, body } => let_to_sexpr(program, *v, *rhs, *body, tag),
        RExpr::QuantifierExpr { vv, body, .. } if vv.is_empty() => to_sexpr(program, *body, tag),
        RExpr::QuantifierExpr {
            univ,
            vv,
            patterns,
            body,
        } => {
            let sbody = annotated(program, *body, patterns, tag);
            quantifier_to_sexpr(program, *univ, vv, sbody)
        }
    }
}

/// The Dafny `RExprListToSExprs`.
fn to_sexprs<'b>(program: &Program<'b>, terms: &[usize], tag: u64) -> Vec<SExpr<'b>> {
    let mut lowered = Vec::with_capacity(terms.len());
    for term in terms {
        lowered.push(to_sexpr(program, *term, tag));
    }
    lowered
}

fn literal_to_sexpr<'b>(program: &Program<'b>, s: &[u8], typ: SType, tag: u64) -> SExpr<'b> {
    if s == TAG {
        SExpr::numeral(tag)
    } else {
        SExpr::S(Cow::Owned(custom_literal_to_sexpr_name(program, s, typ)))
    }
}

/// A built-in operator is the solver's own, so its name stays as it is.
fn operator_to_sexpr<'b>(program: &Program<'b>, op: &ROperator<'b>) -> SExpr<'b> {
    match op {
        ROperator::BuiltInOperator(name) => SExpr::name(name),
        ROperator::UserDefinedFunction(function) => {
            SExpr::symbol(program.functions[*function].name)
        }
    }
}

fn let_to_sexpr<'b>(
    program: &Program<'b>,
    v: usize,
    rhs: usize,
    body: usize,
    tag: u64,
) -> SExpr<'b> {
    let v = SExpr::symbol(program.constants[v].name);
    let binding = SExpr::PP(vec![v, to_sexpr(program, rhs, tag)]);
    let body = to_sexpr(program, body, tag);
    SExpr::func_appl(SExpr::name(b"let"), vec![SExpr::PP(vec![binding]), body])
}

/// A quantifier's body with its patterns behind it, if there are any.
fn annotated<'b>(program: &Program<'b>, body: usize, patterns: &[usize], tag: u64) -> SExpr<'b> {
    let body = to_sexpr(program, body, tag);
    if patterns.is_empty() {
        return body;
    }
    let mut args = vec![body];
    for pattern in patterns {
        let terms = to_sexprs(program, &program.patterns[*pattern].exprs, tag);
        args.push(SExpr::name(b":pattern"));
        args.push(SExpr::PP(terms));
    }
    SExpr::func_appl(SExpr::name(b"!"), args)
}

fn quantifier_to_sexpr<'b>(
    program: &Program<'b>,
    univ: bool,
    vv: &[usize],
    sbody: SExpr<'b>,
) -> SExpr<'b> {
    let bound_vars = vv.iter().map(|v| bound_var_to_sexpr(program, *v)).collect();
    let quantifier: &[u8] = if univ { b"forall" } else { b"exists" };
    SExpr::func_appl(SExpr::name(quantifier), vec![SExpr::PP(bound_vars), sbody])
}

/// The name that a literal is declared by: `|s:type|`, each part as the book has
/// it, since the whole is between bars.
pub fn custom_literal_to_sexpr_name(program: &Program, s: &[u8], typ: SType) -> Vec<u8> {
    [b"|", s, b":", typ.text(program), b"|"].concat()
}

fn bound_var_to_sexpr<'b>(program: &Program<'b>, v: usize) -> SExpr<'b> {
    let constant = &program.constants[v];
    SExpr::PP(vec![
        SExpr::symbol(constant.name),
        constant.typ.to_sexpr(program),
    ])
}
