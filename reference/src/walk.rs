//! RSolver.dfy's `DeclareNewSymbols`, over either form of the solver state:
//! the sets of the Dafny bodies or the levels that a session stores.

use crate::commands;
use crate::lower::{custom_literal_to_sexpr_name, to_sexpr, TAG};
use crate::program::{Program, RExpr, ROperator, SType};
use crate::sexpr::SExpr;
use crate::sink::Sink;
use crate::symbols::symbol_text;
use std::collections::BTreeSet;

/// An object of the Dafny trait, by its record's number.
#[derive(Clone, Copy, Debug, PartialEq, Eq, Hash)]
pub enum DeclarationMarker {
    Type(usize),
    Constant(usize),
    Function(usize),
    Axiom(usize),
}

/// What the walk asks of a solver state.
pub trait Declarations {
    fn is_declared(&self, marker: DeclarationMarker) -> bool;
    fn add(&mut self, marker: DeclarationMarker);
    fn is_name_declared(&self, name: &[u8]) -> bool;
    /// `term` is the literal that declares the name.
    fn add_name(&mut self, name: &[u8], term: usize);
    /// Declared markers plus names.
    fn count(&self) -> u64;
}

/// A solver state with the text that was sent.
pub struct Walk<'p, 'b, D> {
    pub program: &'p Program<'b>,
    pub declared: D,
    pub sent: Sink,
    /// A declared function had an axiom without a term: refusal 9. The walk
    /// goes on all the same.
    pub missing_axiom: bool,
}

impl<'p, 'b, D: Declarations> Walk<'p, 'b, D> {
    pub fn new(program: &'p Program<'b>, declared: D, sent: Sink) -> Walk<'p, 'b, D> {
        Walk {
            program,
            declared,
            sent,
            missing_axiom: false,
        }
    }

    /// A term's new symbols, with nothing excluded.
    pub fn declare_symbols_of(&mut self, term: usize) {
        self.declare_new_symbols(term, &BTreeSet::new());
    }

    /// The term as it is lowered now: `%tag` is the present count.
    pub fn lowered(&self, term: usize) -> SExpr<'b> {
        to_sexpr(self.program, term, self.declared.count())
    }

    pub fn add_assumption(&mut self, expr: &SExpr) {
        commands::assume(expr, &mut self.sent);
    }

    /// What a node or an axiom sends: its new symbols, then its assertion.
    pub fn declare_and_assume(&mut self, term: usize) {
        self.declare_symbols_of(term);
        self.add_assumption(&self.lowered(term));
    }

    pub fn send(&mut self, command: &[u8]) {
        commands::send(command, &mut self.sent);
    }

    /// The larger cases are methods of their own: terms nest a thousand deep,
    /// and the stack is to hold them.
    fn declare_new_symbols(&mut self, term: usize, exclude: &BTreeSet<usize>) {
        match &self.program.terms[term] {
            RExpr::Boolean(_) | RExpr::Integer(_) => {}
            RExpr::CustomLiteral { s, typ } => self.declare_literal(term, s, *typ),
            RExpr::Id(v) => {
                if !exclude.contains(v) {
                    self.declare_constant(*v);
                }
            }
            RExpr::FuncAppl { op, args } => {
                match op {
                    ROperator::BuiltInOperator(_) => {}
                    ROperator::UserDefinedFunction(function) => self.declare_function(*function),
                }
                self.declare_in_each(args, exclude);
            }
            RExpr::IfThenElse { guard, thn, els } => {
                self.declare_in_each(&[*guard, *thn, *els], exclude);
            }
            RExpr::LetExpr { v, rhs, body } => {
                self.declare_new_types(self.program.constants[*v].typ);
                self.declare_new_symbols(*rhs, exclude);
                self.declare_new_symbols(*body, &with(exclude, &[*v]));
            }
            RExpr::QuantifierExpr {
                vv, patterns, body, ..
            } => self.declare_in_quantifier(vv, patterns, *body, exclude),
        }
    }

    fn declare_in_each(&mut self, terms: &[usize], exclude: &BTreeSet<usize>) {
        for term in terms {
            self.declare_new_symbols(*term, exclude);
        }
    }

    fn declare_in_quantifier(
        &mut self,
        vv: &[usize],
        patterns: &[usize],
        body: usize,
        exclude: &BTreeSet<usize>,
    ) {
        let exclude = with(exclude, vv);
        for v in vv {
            self.declare_new_types(self.program.constants[*v].typ);
        }
        for pattern in patterns {
            self.declare_in_each(&self.program.patterns[*pattern].exprs, &exclude);
        }
        self.declare_new_symbols(body, &exclude);
    }

    fn declare_literal(&mut self, term: usize, s: &[u8], typ: SType) {
        if s == TAG {
            return;
        }
        let name = custom_literal_to_sexpr_name(self.program, s, typ);
        if !self.declared.is_name_declared(&name) {
            self.declare_new_types(typ);
            self.declare_symbol_by_name(&name, &[], typ);
            self.declared.add_name(&name, term);
        }
    }

    fn declare_constant(&mut self, v: usize) {
        let marker = DeclarationMarker::Constant(v);
        if !self.declared.is_declared(marker) {
            let constant = &self.program.constants[v];
            self.declare_new_types(constant.typ);
            self.declare_symbol_by_name(&symbol_text(constant.name), &[], constant.typ);
            self.declared.add(marker);
        }
    }

    fn declare_function(&mut self, number: usize) {
        let marker = DeclarationMarker::Function(number);
        if self.declared.is_declared(marker) {
            return;
        }
        let function = &self.program.functions[number];
        for typ in &function.input_types {
            self.declare_new_types(*typ);
        }
        self.declare_new_types(function.typ);
        let name = symbol_text(function.name);
        self.declare_symbol_by_name(&name, &function.input_types, function.typ);
        self.declared.add(marker);
        for axiom in &function.explained_by {
            self.include_axiom(*axiom);
        }
    }

    /// One axiom that explains a function just declared. Its term is looked
    /// up whether or not it is sent now.
    fn include_axiom(&mut self, number: usize) {
        let axiom = &self.program.axioms[number];
        let Some(cond) = axiom.term else {
            self.missing_axiom = true;
            return;
        };
        let marker = DeclarationMarker::Axiom(number);
        let explained = |f: &usize| self.declared.is_declared(DeclarationMarker::Function(*f));
        if !self.declared.is_declared(marker) && axiom.explains.iter().all(explained) {
            self.declared.add(marker);
            self.declare_and_assume(cond);
        }
    }

    fn declare_new_types(&mut self, typ: SType) {
        match typ {
            SType::SBool | SType::SInt => {}
            SType::SUserType(decl) => {
                let marker = DeclarationMarker::Type(decl);
                if !self.declared.is_declared(marker) {
                    let name = symbol_text(self.program.types[decl].name);
                    commands::declare_sort(&name, &mut self.sent);
                    self.declared.add(marker);
                }
            }
        }
    }

    fn declare_symbol_by_name(&mut self, name: &[u8], input_types: &[SType], typ: SType) {
        let inputs = SType::types_to_sexpr(input_types, self.program);
        let output = typ.to_sexpr(self.program);
        commands::declare_function(name, &inputs, &output, &mut self.sent);
    }
}

/// A set of excluded constants with some more.
fn with(exclude: &BTreeSet<usize>, more: &[usize]) -> BTreeSet<usize> {
    exclude.iter().chain(more).copied().collect()
}
