//! From the terms of the syntax to term records.

use crate::book::kind;
use crate::plan::binder::{Binder, Listing};
use crate::plan::error::{refuse, Result};
use crate::plan::scope::Symbol;
use crate::plan::syntax::{Name, Pattern, Place, TermKind, Variable};

impl Binder<'_> {
    /// Finds the numbers of the terms before a place.
    pub(super) fn terms_up_to(&mut self, end: Place) -> Result<()> {
        let terms = self.terms;
        for term in &terms[self.numbers.len()..end] {
            let number = self.number(&term.kind)?;
            self.numbers.push(number);
            self.packer.check_limits(term.at)?;
        }
        Ok(())
    }

    /// The number of a new record, or that of the named term.
    fn number(&mut self, kind: &TermKind) -> Result<u32> {
        match kind {
            TermKind::Boolean(b) => Ok(self.packer.maker.boolean(*b)),
            TermKind::Integer(x) => Ok(self.packer.maker.integer(*x)),
            TermKind::Literal { s, typ } => {
                let typ = self.scope.typ(typ)?;
                Ok(self.literal(s, typ))
            }
            TermKind::Name(name) => self.named(name),
            TermKind::Application { head, args } => self.application(head, args),
            TermKind::BuiltIn { operator, args } => self.built_in(operator, args),
            TermKind::IfThenElse([guard, thn, els]) => {
                let guard = self.referred_term(*guard)?;
                let [thn, els] = [self.referred_term(*thn)?, self.referred_term(*els)?];
                Ok(self.packer.maker.if_then_else(guard, thn, els))
            }
            TermKind::Let {
                variable,
                rhs,
                body,
            } => {
                let variable = self.scope.constant(variable)?;
                let [rhs, body] = [self.referred_term(*rhs)?, self.referred_term(*body)?];
                Ok(self.packer.maker.let_expr(variable, rhs, body))
            }
            TermKind::Quantifier {
                univ,
                variables,
                body,
                patterns,
            } => {
                let variables = self.variables(variables)?;
                let body = self.referred_term(*body)?;
                let patterns = self.patterns(patterns)?;
                let [vv, vv_count] = self.packer.list(&variables);
                let [patterns, pattern_count] = self.packer.list(&patterns);
                let univ = u32::from(*univ);
                let fields = [univ, vv, vv_count, patterns, pattern_count, body];
                Ok(self.packer.maker.term(kind::QUANTIFIER, fields))
            }
        }
    }

    fn literal(&mut self, s: &str, typ: u32) -> u32 {
        let fields = [self.packer.name(s), typ];
        self.packer.maker.term(kind::CUSTOM_LITERAL, fields)
    }

    fn named(&mut self, name: &Name) -> Result<u32> {
        if let Some((s, typ)) = self.scope.printed_literal(name) {
            return Ok(self.literal(s, typ));
        }
        match self.scope.symbol(name)? {
            Symbol::Term(number) => Ok(number),
            Symbol::Constant(constant) => Ok(self.packer.maker.id(constant)),
            Symbol::Function(_) | Symbol::Operator => self.application(name, &[]),
        }
    }

    fn referred_terms(&mut self, terms: &[Place]) -> Result<Vec<u32>> {
        terms.iter().map(|term| self.referred_term(*term)).collect()
    }

    fn application(&mut self, head: &Name, args: &[Place]) -> Result<u32> {
        match self.scope.symbol(head) {
            Ok(Symbol::Operator) => self.built_in(&head.text, args),
            Ok(Symbol::Function(function)) => {
                let args = self.referred_terms(args)?;
                let [start, count] = self.packer.list(&args);
                let fields = [function, start, count];
                Ok(self.packer.maker.term(kind::FUNCTION, fields))
            }
            _ => refuse(head.at, "a function or an operator", head.quoted()),
        }
    }

    fn built_in(&mut self, operator: &str, args: &[Place]) -> Result<u32> {
        let args = self.referred_terms(args)?;
        let [start, count] = self.packer.list(&args);
        let fields = [self.packer.name(operator), start, count];
        Ok(self.packer.maker.term(kind::BUILT_IN, fields))
    }

    /// The constants that are bound; the text repeats their types.
    fn variables(&self, variables: &[Variable]) -> Result<Vec<u32>> {
        let mut numbers = Vec::with_capacity(variables.len());
        for Variable { name, typ } in variables {
            let constant = self.scope.constant(name)?;
            let declared = self.scope.type_of(constant);
            if self.scope.typ(typ)? != self.scope.typ(declared)? {
                let expected = format!("{}, the type of {}", declared.quoted(), name.quoted());
                return refuse(typ.at, expected, typ.quoted());
            }
            numbers.push(constant);
        }
        Ok(numbers)
    }

    /// The patterns in place are recorded just before their quantifier, whose
    /// record comes next.
    fn patterns(&mut self, patterns: &[Pattern]) -> Result<Vec<u32>> {
        let quantifier = self.packer.maker.terms.len() as u32;
        let mut numbers = Vec::with_capacity(patterns.len());
        for pattern in patterns {
            numbers.push(match pattern {
                Pattern::InPlace(terms) => {
                    let terms = self.referred_terms(terms)?;
                    self.new_pattern(&terms)
                }
                Pattern::Named(name) => {
                    let number = self.scope.pattern(name)?;
                    self.listings.push(Listing {
                        at: name.at,
                        pattern: number,
                        quantifier,
                    });
                    number
                }
            });
        }
        Ok(numbers)
    }

    /// Gives the number of a new pattern record.
    pub(super) fn new_pattern(&mut self, terms: &[u32]) -> u32 {
        let range = self.packer.list(terms);
        self.packer.maker.patterns.push(range);
        self.packer.maker.patterns.len() as u32 - 1
    }
}
