//! What a term's text says.

use crate::attack::meaning::{list, name, Plan};
use crate::attack::names::{may_name_operator, without_bars};
use crate::attack::readable::Piece;
use crate::attack::terms::{operator, Sort, Term};

impl Plan {
    pub(super) fn term(&mut self, piece: &Piece) -> Option<Term> {
        match piece {
            Piece::Integer(x) => Some(Term::Integer(*x)),
            Piece::Name(name) => self.named(name),
            Piece::List(list) => self.compound(list),
            Piece::Keyword(_) | Piece::Text(_) => None,
        }
    }

    fn all(&mut self, pieces: &[Piece]) -> Option<Vec<Term>> {
        pieces.iter().map(|piece| self.term(piece)).collect()
    }

    fn named(&mut self, name: &str) -> Option<Term> {
        match name {
            "true" => return Some(Term::Boolean(true)),
            "false" => return Some(Term::Boolean(false)),
            "%tag" => return Some(Term::Tag),
            _ => {}
        }
        if let Some(operator) = operator(name) {
            return Some(Term::Operator(operator, Vec::new()));
        }
        if let Some(term) = self.terms.get(name) {
            return Some(term.clone());
        }
        if let Some(constant) = self.constant(name) {
            return Some(Term::Constant(constant));
        }
        match self.function(name) {
            Some(function) => Some(Term::Apply(function, Vec::new())),
            None => self.printed_literal(name),
        }
    }

    /// `|red:Shade|`: of several colons the last before a type.
    fn printed_literal(&mut self, name: &str) -> Option<Term> {
        let colons = name.rmatch_indices(':').map(|(colon, _)| colon);
        let mut literals = colons.filter_map(|colon| {
            let sort = match &name[colon + 1..] {
                "bool" => Sort::Bool,
                "int" => Sort::Int,
                seen => Sort::User(self.types.iter().position(|(_, known)| known == seen)?),
            };
            Some((name[..colon].to_string(), sort))
        });
        let (text, sort) = literals.next()?;
        drop(literals);
        Some(self.literal(&text, sort))
    }

    fn literal(&mut self, text: &str, sort: Sort) -> Term {
        if text == "%tag" {
            return Term::Tag;
        }
        let literal = (text.to_string(), sort);
        let known = self.literals.iter().position(|known| *known == literal);
        Term::Literal(known.unwrap_or_else(|| {
            self.literals.push(literal);
            self.literals.len() - 1
        }))
    }

    fn compound(&mut self, list: &[Piece]) -> Option<Term> {
        let (head, rest) = list.split_first()?;
        match (name(head)?, rest) {
            ("literal", [Piece::Text(text), sort]) => {
                let sort = self.sort(sort)?;
                Some(self.literal(text, sort))
            }
            ("builtin", [Piece::Text(name), args @ ..]) => {
                let args = self.all(args)?;
                Some(match operator(without_bars(name)) {
                    Some(operator) => Term::Operator(operator, args),
                    None if may_name_operator(name) => Term::Other(args),
                    None => Term::Nothing,
                })
            }
            ("ite", [_, _, _]) => {
                let parts = <[Term; 3]>::try_from(self.all(rest)?).ok()?;
                Some(Term::IfThenElse(Box::new(parts)))
            }
            ("let", [bindings, body]) => self.let_expr(bindings, body),
            ("forall", [variables, body]) => self.quantifier(true, variables, body),
            ("exists", [variables, body]) => self.quantifier(false, variables, body),
            ("literal" | "builtin" | "ite" | "let" | "forall" | "exists", _) => None,
            (_, []) => None,
            (head, args) => self.application(head, args),
        }
    }

    fn application(&mut self, head: &str, args: &[Piece]) -> Option<Term> {
        let args = self.all(args)?;
        match (operator(head), self.function(head)) {
            (Some(operator), _) => Some(Term::Operator(operator, args)),
            (None, Some(function)) => Some(Term::Apply(function, args)),
            (None, None) => None,
        }
    }

    fn let_expr(&mut self, bindings: &Piece, body: &Piece) -> Option<Term> {
        let [binding] = list(bindings)? else {
            return None;
        };
        let [variable, bound] = list(binding)? else {
            return None;
        };
        let variable = self.constant(name(variable)?)?;
        let parts = [self.term(bound)?, self.term(body)?];
        Some(Term::Let(variable, Box::new(parts)))
    }

    fn quantifier(&mut self, is_universal: bool, variables: &Piece, body: &Piece) -> Option<Term> {
        let mut bound = Vec::new();
        for variable in list(variables)? {
            let [variable, sort] = list(variable)? else {
                return None;
            };
            let constant = self.constant(name(variable)?)?;
            if self.constants[constant].1 != self.sort(sort)? {
                return None;
            }
            bound.push(constant);
        }
        Some(Term::Quantifier {
            is_universal,
            variables: bound,
            body: Box::new(self.body(body)?),
        })
    }

    /// Patterns say nothing.
    fn body(&mut self, body: &Piece) -> Option<Term> {
        match list(body) {
            Some([head, term, ..]) if name(head) == Some("!") => self.term(term),
            _ => self.term(body),
        }
    }
}
