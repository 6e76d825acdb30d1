//! SolverExpr.dfy: S-expressions, and their printing in both layouts.

use crate::program::{Program, SType};
use crate::sink::Sink;
use crate::symbols::symbol_text;
use std::borrow::Cow;

/// How much further the rest of a row is indented than its first part.
const EXTRA_INDENT: u64 = 2;
const EMPTY: &[u8] = b"()";

#[derive(Clone, Debug, PartialEq, Eq)]
pub enum SExpr<'b> {
    /// A single name.
    S(Cow<'b, [u8]>),
    /// Parentheses.
    PP(Vec<SExpr<'b>>),
}

/// The indent is a count of spaces.
#[derive(Clone, Copy, Debug)]
pub struct SExprPrintConfig {
    pub newlines: bool,
    pub indent: u64,
}

impl SExprPrintConfig {
    /// What commands are printed with.
    pub const ONE_LINE: SExprPrintConfig = SExprPrintConfig {
        newlines: false,
        indent: 0,
    };

    /// Saturates: an indent that high is longer than any buffer anyway.
    fn extra_indent(self) -> SExprPrintConfig {
        SExprPrintConfig {
            indent: self.indent.saturating_add(EXTRA_INDENT),
            ..self
        }
    }

    fn space(self, sink: &mut Sink) {
        if self.newlines {
            sink.write(b"\n");
            sink.spaces(self.indent);
        } else {
            sink.write(b" ");
        }
    }
}

impl<'b> SExpr<'b> {
    const FALSE: &'static [u8] = b"false";
    const TRUE: &'static [u8] = b"true";
    const NOT: &'static [u8] = b"not";
    const MINUS: &'static [u8] = b"-";

    /// The Dafny `ToString`.
    pub fn print(&self, config: SExprPrintConfig, sink: &mut Sink) {
        match self {
            SExpr::S(name) if name.is_empty() => sink.write(EMPTY),
            SExpr::S(name) => sink.write(name),
            SExpr::PP(parts) => match parts.split_first() {
                None => sink.write(EMPTY),
                Some((first, rest)) => {
                    sink.write(b"(");
                    first.print(config, sink);
                    let new_indent = config.extra_indent();
                    for argument in rest {
                        new_indent.space(sink);
                        argument.print(new_indent, sink);
                    }
                    sink.write(b")");
                }
            },
        }
    }

    /// A word or an operator's name, as it is.
    pub fn name(name: &'b [u8]) -> SExpr<'b> {
        SExpr::S(Cow::Borrowed(name))
    }

    /// The name of a type, constant or function.
    pub fn symbol(name: &'b [u8]) -> SExpr<'b> {
        SExpr::S(symbol_text(name))
    }

    pub fn boolean(b: bool) -> SExpr<'b> {
        SExpr::name(if b { Self::TRUE } else { Self::FALSE })
    }

    /// The name that a number's decimal digits make.
    pub fn numeral(n: u64) -> SExpr<'b> {
        SExpr::S(Cow::Owned(n.to_string().into_bytes()))
    }

    /// The Dafny body makes one name of every number. SMT-LIB 2.6 decides
    /// here over it, the first departure: it reads `-5` as a symbol, so a
    /// negative number is a minus applied to the numeral. That of the least
    /// one is no i64.
    pub fn integer(x: i64) -> SExpr<'b> {
        let magnitude = SExpr::numeral(x.unsigned_abs());
        if x < 0 {
            SExpr::func_appl(SExpr::name(Self::MINUS), vec![magnitude])
        } else {
            magnitude
        }
    }

    /// An operator without arguments is its bare name.
    pub fn func_appl(op: SExpr<'b>, args: Vec<SExpr<'b>>) -> SExpr<'b> {
        if args.is_empty() {
            return op;
        }
        let mut parts = vec![op];
        parts.extend(args);
        SExpr::PP(parts)
    }

    pub fn negation(e: SExpr<'b>) -> SExpr<'b> {
        SExpr::PP(vec![SExpr::name(Self::NOT), e])
    }
}

impl SType {
    /// The built-in types as they stand in a literal's name.
    pub const BOOL_IN_LITERAL: &'static str = "bool";
    pub const INT_IN_LITERAL: &'static str = "int";

    pub fn to_sexpr<'b>(self, program: &Program<'b>) -> SExpr<'b> {
        match self {
            SType::SBool => SExpr::name(b"Bool"),
            SType::SInt => SExpr::name(b"Int"),
            SType::SUserType(decl) => SExpr::symbol(program.types[decl].name),
        }
    }

    /// The Dafny `ToString`: as it stands in a literal's name and in a listing.
    pub fn text<'b>(self, program: &Program<'b>) -> &'b [u8] {
        match self {
            SType::SBool => Self::BOOL_IN_LITERAL.as_bytes(),
            SType::SInt => Self::INT_IN_LITERAL.as_bytes(),
            SType::SUserType(decl) => program.types[decl].name,
        }
    }

    pub fn types_to_sexpr<'b>(types: &[SType], program: &Program<'b>) -> SExpr<'b> {
        SExpr::PP(types.iter().map(|typ| typ.to_sexpr(program)).collect())
    }
}
