//! The text of a book's terms.

use crate::plan::handles::{self, Handles};
use crate::plan::layout::Piece;
use crate::plan::nesting::Nesting;
use crate::plan::words::{
    is_operator, string, text_of, ANNOTATED, BUILT_IN, EXISTS, FALSE, FORALL, ITE, LET, LITERAL,
    PATTERN_KEY, TAG, TRUE,
};
use crate::program::{Program, RExpr, ROperator, SType};

pub struct TermWriter<'p, 'b> {
    pub program: &'p Program<'b>,
    pub handles: Handles,
    pub nesting: Nesting,
}

impl<'p, 'b> TermWriter<'p, 'b> {
    pub fn new(program: &'p Program<'b>) -> TermWriter<'p, 'b> {
        TermWriter {
            program,
            handles: Handles::of(program),
            nesting: Nesting::of(program),
        }
    }

    /// A term inside another: itself, or its name.
    fn inner(&self, term: usize) -> Piece {
        if self.nesting.nested[term] {
            self.term(term)
        } else {
            self.name(term)
        }
    }

    pub fn name(&self, term: usize) -> Piece {
        Piece::word(&self.handles.terms[term])
    }

    /// The larger cases are methods of their own: terms nest a thousand deep,
    /// and the stack is to hold them.
    pub fn term(&self, term: usize) -> Piece {
        match &self.program.terms[term] {
            RExpr::Boolean(true) => Piece::word(TRUE),
            RExpr::Boolean(false) => Piece::word(FALSE),
            RExpr::Integer(x) => Piece::word(x.to_string()),
            RExpr::CustomLiteral { s, typ } => self.literal(s, *typ),
            RExpr::Id(v) => Piece::word(&self.handles.constants[*v].symbol),
            RExpr::FuncAppl { op, args } => self.application(op, args),
            RExpr::IfThenElse { guard, thn, els } => self.row(ITE, &[*guard, *thn, *els]),
            RExpr::LetExpr { v, rhs, body } => self.let_expr(*v, *rhs, *body),
            RExpr::QuantifierExpr {
                univ,
                vv,
                patterns,
                body,
            } => self.quantifier(*univ, vv, patterns, *body),
        }
    }

    fn inner_terms(&self, terms: &[usize]) -> Vec<Piece> {
        let mut pieces = Vec::with_capacity(terms.len());
        for term in terms {
            pieces.push(self.inner(*term));
        }
        pieces
    }

    fn row(&self, head: &str, terms: &[usize]) -> Piece {
        let mut parts = vec![Piece::word(head)];
        parts.extend(self.inner_terms(terms));
        Piece::row(parts)
    }

    fn literal(&self, s: &[u8], typ: SType) -> Piece {
        let s = text_of(s);
        if s == TAG && typ == SType::SInt {
            return Piece::word(TAG);
        }
        Piece::words([LITERAL, &string(&s), self.handles.typ(typ)])
    }

    /// Without arguments a name stands alone.
    fn application(&self, op: &ROperator, args: &[usize]) -> Piece {
        let head = match op {
            ROperator::UserDefinedFunction(function) => {
                self.handles.functions[*function].symbol.clone()
            }
            ROperator::BuiltInOperator(name) => {
                let name = text_of(name);
                if !is_operator(&name) {
                    return self.built_in(&name, args);
                }
                name
            }
        };
        if args.is_empty() {
            Piece::word(head)
        } else {
            self.row(&head, args)
        }
    }

    fn built_in(&self, name: &str, args: &[usize]) -> Piece {
        let mut parts = vec![Piece::word(BUILT_IN), Piece::word(string(name))];
        parts.extend(self.inner_terms(args));
        Piece::row(parts)
    }

    fn let_expr(&self, v: usize, rhs: usize, body: usize) -> Piece {
        let variable = Piece::word(&self.handles.constants[v].symbol);
        let binding = Piece::row(vec![variable, self.inner(rhs)]);
        let bindings = Piece::row(vec![binding]);
        let parts = vec![Piece::word(LET), bindings, self.inner(body)];
        Piece::row_keeping(HEAD_AND_BOUND, parts)
    }

    fn quantifier(&self, univ: bool, vv: &[usize], patterns: &[usize], body: usize) -> Piece {
        let variable = |v: &usize| {
            let typ = self.handles.typ(self.program.constants[*v].typ);
            Piece::words([self.handles.constants[*v].symbol.as_str(), typ])
        };
        let word = Piece::word(if univ { FORALL } else { EXISTS });
        let variables = Piece::row(vv.iter().map(variable).collect());
        let body = self.annotated(patterns, body);
        Piece::row_keeping(HEAD_AND_BOUND, vec![word, variables, body])
    }

    /// A quantifier's body, with its patterns if it has any.
    fn annotated(&self, patterns: &[usize], body: usize) -> Piece {
        let body = self.inner(body);
        if patterns.is_empty() {
            return body;
        }
        let mut parts = vec![Piece::word(ANNOTATED), body];
        for pattern in patterns {
            parts.push(Piece::attribute(PATTERN_KEY, self.pattern(*pattern)));
        }
        Piece::row(parts)
    }

    fn pattern(&self, pattern: usize) -> Piece {
        if pattern < self.nesting.patterns_in_place {
            Piece::row(self.inner_terms(&self.program.patterns[pattern].exprs))
        } else {
            Piece::word(handles::pattern(pattern))
        }
    }
}

/// The word of a let or quantifier and what it binds stand on one line.
const HEAD_AND_BOUND: usize = 2;
