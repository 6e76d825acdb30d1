//! What a book holds, as data types that mirror the Dafny ones. Objects are
//! record numbers; a term's children are term numbers.

use crate::book::{kind, Book, Range, Section, BOOL, FIRST_USER_TYPE, INT, NO_TERM, TERM_FIELDS};

#[derive(Clone, Copy, Debug, PartialEq, Eq)]
pub enum SType {
    SBool,
    SInt,
    SUserType(usize),
}

#[derive(Debug, PartialEq, Eq)]
pub struct STypeDecl<'b> {
    pub name: &'b [u8],
}

#[derive(Debug, PartialEq, Eq)]
pub struct SConstant<'b> {
    pub name: &'b [u8],
    pub typ: SType,
}

/// A function with its one declaration.
#[derive(Debug, PartialEq, Eq)]
pub struct Function<'b> {
    pub name: &'b [u8],
    pub input_types: Vec<SType>,
    pub typ: SType,
    pub explained_by: Vec<usize>,
}

/// An axiom; its term is what `axiomMap` has for it.
#[derive(Debug, PartialEq, Eq)]
pub struct Axiom {
    pub term: Option<usize>,
    pub explains: Vec<usize>,
}

#[derive(Debug, PartialEq, Eq)]
pub struct RPattern {
    pub exprs: Vec<usize>,
}

#[derive(Debug, PartialEq, Eq)]
pub enum ROperator<'b> {
    BuiltInOperator(&'b [u8]),
    UserDefinedFunction(usize),
}

#[derive(Debug, PartialEq, Eq)]
pub enum RExpr<'b> {
    Boolean(bool),
    Integer(i64),
    CustomLiteral {
        s: &'b [u8],
        typ: SType,
    },
    Id(usize),
    FuncAppl {
        op: ROperator<'b>,
        args: Vec<usize>,
    },
    IfThenElse {
        guard: usize,
        thn: usize,
        els: usize,
    },
    LetExpr {
        v: usize,
        rhs: usize,
        body: usize,
    },
    QuantifierExpr {
        univ: bool,
        vv: Vec<usize>,
        patterns: Vec<usize>,
        body: usize,
    },
}

/// A context node below the root; record i is node i + 1.
#[derive(Debug, PartialEq, Eq)]
pub struct RContextNode<'b> {
    pub parent: usize,
    pub expr: usize,
    pub trace_string: Option<&'b [u8]>,
    pub depth: usize,
}

/// The node number of `RContextRoot`.
pub const ROOT: usize = 0;

#[derive(Debug, PartialEq, Eq)]
pub struct Program<'b> {
    pub types: Vec<STypeDecl<'b>>,
    pub constants: Vec<SConstant<'b>>,
    pub functions: Vec<Function<'b>>,
    pub axioms: Vec<Axiom>,
    pub patterns: Vec<RPattern>,
    pub terms: Vec<RExpr<'b>>,
    contexts: Vec<RContextNode<'b>>,
}

impl<'b> Program<'b> {
    /// Reads a book that has none of the refusals 2 to 4.
    pub fn decode(book: Book<'b>) -> Program<'b> {
        let mut contexts: Vec<RContextNode> = Vec::new();
        for [parent, term, trace] in book.records(Section::Contexts) {
            let parent = parent as usize;
            // Node n is the last of the first n records.
            let above = contexts[..parent].last().map_or(0, |node| node.depth);
            contexts.push(RContextNode {
                parent,
                expr: term as usize,
                trace_string: trace.checked_sub(1).map(|name| book.name(name)),
                depth: above + 1,
            });
        }
        Program {
            types: book
                .records(Section::Types)
                .map(|[name]| STypeDecl {
                    name: book.name(name),
                })
                .collect(),
            constants: book
                .records(Section::Constants)
                .map(|[name, typ]| SConstant {
                    name: book.name(name),
                    typ: stype(typ),
                })
                .collect(),
            functions: book
                .records(Section::Functions)
                .map(
                    |[name, typ, inputs, input_count, axioms, axiom_count]| Function {
                        name: book.name(name),
                        input_types: book
                            .entries(Range::new(inputs, input_count))
                            .map(stype)
                            .collect(),
                        typ: stype(typ),
                        explained_by: numbers(book, axioms, axiom_count),
                    },
                )
                .collect(),
            axioms: book
                .records(Section::Axioms)
                .map(|[term, start, count]| Axiom {
                    term: (term != NO_TERM).then_some(term as usize),
                    explains: numbers(book, start, count),
                })
                .collect(),
            patterns: book
                .records(Section::Patterns)
                .map(|[start, count]| RPattern {
                    exprs: numbers(book, start, count),
                })
                .collect(),
            terms: book
                .records(Section::Terms)
                .map(|record| rexpr(book, record))
                .collect(),
            contexts,
        }
    }

    pub fn has_term(&self, term: u32) -> bool {
        (term as usize) < self.terms.len()
    }

    pub fn has_node(&self, node: u32) -> bool {
        node as usize <= self.contexts.len()
    }

    /// None for the root.
    pub fn node(&self, node: usize) -> Option<&RContextNode<'b>> {
        node.checked_sub(1).map(|record| &self.contexts[record])
    }

    pub fn nodes(&self) -> &[RContextNode<'b>] {
        &self.contexts
    }

    pub fn depth(&self, node: usize) -> usize {
        self.node(node).map_or(0, |context| context.depth)
    }

    /// The nodes from below the root down to `node`.
    pub fn path(&self, node: usize) -> Vec<usize> {
        let mut path = Vec::new();
        let mut at = node;
        while let Some(context) = self.node(at) {
            path.push(at);
            at = context.parent;
        }
        path.reverse();
        path
    }

    /// The terms that a term refers to; a pattern's once for each listing.
    pub fn children(&self, term: usize) -> Vec<usize> {
        match &self.terms[term] {
            RExpr::Boolean(_) | RExpr::Integer(_) | RExpr::CustomLiteral { .. } | RExpr::Id(_) => {
                vec![]
            }
            RExpr::FuncAppl { args, .. } => args.clone(),
            RExpr::IfThenElse { guard, thn, els } => vec![*guard, *thn, *els],
            RExpr::LetExpr { rhs, body, .. } => vec![*rhs, *body],
            RExpr::QuantifierExpr { patterns, body, .. } => patterns
                .iter()
                .flat_map(|pattern| self.patterns[*pattern].exprs.iter().copied())
                .chain([*body])
                .collect(),
        }
    }
}

fn stype(number: u32) -> SType {
    match number {
        BOOL => SType::SBool,
        INT => SType::SInt,
        user => SType::SUserType((user - FIRST_USER_TYPE) as usize),
    }
}

/// The record numbers that a range lists.
fn numbers(book: Book, start: u32, count: u32) -> Vec<usize> {
    let entries = book.entries(Range::new(start, count));
    entries.map(|entry| entry as usize).collect()
}

fn rexpr(book: Book, record: [u32; TERM_FIELDS]) -> RExpr {
    let [kind, a, b, c, d, e, f] = record;
    match kind {
        kind::BOOLEAN => RExpr::Boolean(a == 1),
        kind::INTEGER => RExpr::Integer((u64::from(b) << u32::BITS | u64::from(a)) as i64),
        kind::CUSTOM_LITERAL => RExpr::CustomLiteral {
            s: book.name(a),
            typ: stype(b),
        },
        kind::ID => RExpr::Id(a as usize),
        kind::BUILT_IN => RExpr::FuncAppl {
            op: ROperator::BuiltInOperator(book.name(a)),
            args: numbers(book, b, c),
        },
        kind::FUNCTION => RExpr::FuncAppl {
            op: ROperator::UserDefinedFunction(a as usize),
            args: numbers(book, b, c),
        },
        kind::IF_THEN_ELSE => RExpr::IfThenElse {
            guard: a as usize,
            thn: b as usize,
            els: c as usize,
        },
        kind::LET => RExpr::LetExpr {
            v: a as usize,
            rhs: b as usize,
            body: c as usize,
        },
        kind::QUANTIFIER => RExpr::QuantifierExpr {
            univ: a == 1,
            vv: numbers(book, b, c),
            patterns: numbers(book, d, e),
            body: f as usize,
        },
        _ => unreachable!("refusal 4 has no other kind pass"),
    }
}
