//! The rules of sorts and numbers of arguments. Children have smaller numbers
//! than their parents, so one pass upward knows the sorts of all.

use crate::book::FIRST_USER_TYPE;
use crate::lower::TAG;
use crate::plan::complaint::{Complaint, Record};
use crate::plan::words::{text_of, BOOL_TYPE, EXISTS, FORALL, INT_TYPE};
use crate::program::{Program, RExpr, ROperator, SType};
use crate::smtlib::signatures::{signature, Signature};
use crate::symbols::bare;

/// None is any sort: what an operator gives that is not known here.
type Sort = Option<SType>;

const TRUTH: SType = SType::SBool;

/// The first complaint of each term, then of each node and axiom, then of
/// each goal, given by its term.
pub fn complaints(program: &Program, goals: impl Iterator<Item = usize>) -> Vec<Complaint> {
    let mut checker = Checker {
        program,
        sorts: Vec::with_capacity(program.terms.len()),
        complaints: Vec::new(),
    };
    for term in 0..program.terms.len() {
        let sort = checker.term(term);
        checker.sorts.push(sort);
    }
    for (record, node) in program.nodes().iter().enumerate() {
        checker.truth(Record::Node(record + 1), node.expr, "a node's premise");
    }
    for (number, axiom) in program.axioms.iter().enumerate() {
        if let Some(term) = axiom.term {
            checker.truth(Record::Axiom(number), term, "an axiom");
        }
    }
    for (number, term) in goals.enumerate() {
        checker.truth(Record::Goal(number), term, "a goal");
    }
    checker.complaints
}

struct Checker<'p, 'b> {
    program: &'p Program<'b>,
    /// Of the terms so far.
    sorts: Vec<Sort>,
    complaints: Vec<Complaint>,
}

/// A wrong part of a term: its place among the children, what was expected
/// there, and its sort.
struct Wrong {
    part: usize,
    expected: String,
    found: SType,
}

impl Checker<'_, '_> {
    /// Checks a term and gives its sort, which it has even if a part is wrong.
    fn term(&mut self, number: usize) -> Sort {
        match &self.program.terms[number] {
            RExpr::Boolean(_) => Some(SType::SBool),
            RExpr::Integer(_) => Some(SType::SInt),
            RExpr::CustomLiteral { s, typ } if *s == TAG => {
                if *typ != SType::SInt {
                    let expected = format!("`{INT_TYPE}` as the type of `{}`", text_of(TAG));
                    self.complain(number, expected, self.shown(*typ));
                }
                Some(SType::SInt)
            }
            RExpr::CustomLiteral { typ, .. } => Some(*typ),
            RExpr::Id(v) => Some(self.program.constants[*v].typ),
            RExpr::FuncAppl { op, args } => self.application(number, op, args),
            RExpr::IfThenElse { guard, thn, els } => {
                self.if_then_else(number, *guard, [*thn, *els])
            }
            RExpr::LetExpr { v, rhs, body } => {
                let constant = &self.program.constants[*v];
                let expected = || format!(", the type of `{}`", text_of(constant.name));
                let wrong = self.expect(0, *rhs, constant.typ, expected);
                self.complain_of(number, wrong);
                self.sorts[*body]
            }
            RExpr::QuantifierExpr { univ, body, .. } => {
                let word = if *univ { FORALL } else { EXISTS };
                let wrong = self.expect(0, *body, TRUTH, || format!(" as the body of `{word}`"));
                self.complain_of(number, wrong);
                Some(TRUTH)
            }
        }
    }

    fn application(&mut self, number: usize, op: &ROperator, args: &[usize]) -> Sort {
        match op {
            ROperator::UserDefinedFunction(function) => {
                let function = &self.program.functions[*function];
                let inputs = &function.input_types;
                if inputs.len() != args.len() {
                    let expected = arguments(&inputs.len().to_string(), function.name);
                    self.complain(number, expected, args.len().to_string());
                } else {
                    let wrong = self.first_wrong(function.name, args, |arg| inputs[arg]);
                    self.complain_of(number, wrong);
                }
                Some(function.typ)
            }
            ROperator::BuiltInOperator(name) => {
                let signature = signature(bare(name))?;
                self.operation(number, name, signature, args);
                Some(signature.gives)
            }
        }
    }

    fn operation(&mut self, number: usize, name: &[u8], signature: Signature, args: &[usize]) {
        let Signature {
            least, most, takes, ..
        } = signature;
        if args.len() < least || most.is_some_and(|most| args.len() > most) {
            let count = match most {
                Some(_) => least.to_string(),
                None => format!("{least} or more"),
            };
            self.complain(number, arguments(&count, name), args.len().to_string());
            return;
        }
        let wrong = match takes {
            Some(sort) => self.first_wrong(name, args, |_| sort),
            None => self.first_unlike(args, |first| {
                format!(", like argument {} of `{}`", first + 1, text_of(name))
            }),
        };
        self.complain_of(number, wrong);
    }

    fn if_then_else(&mut self, number: usize, guard: usize, branches: [usize; 2]) -> Sort {
        let wrong = self.expect(0, guard, TRUTH, || " as the guard of `ite`".into());
        let wrong = wrong.or_else(|| {
            let unlike =
                self.first_unlike(&branches, |_| ", like the other branch of `ite`".into());
            // The branches are parts behind the guard.
            unlike.map(|wrong| Wrong {
                part: wrong.part + 1,
                ..wrong
            })
        });
        self.complain_of(number, wrong);
        let [thn, els] = branches.map(|branch| self.sorts[branch]);
        thn.or(els)
    }

    /// The first argument that has not the sort it is to have.
    fn first_wrong(
        &self,
        name: &[u8],
        args: &[usize],
        sort: impl Fn(usize) -> SType,
    ) -> Option<Wrong> {
        let mut args = args.iter().enumerate();
        args.find_map(|(part, arg)| {
            let place = || format!(" as argument {} of `{}`", part + 1, text_of(name));
            self.expect(part, *arg, sort(part), place)
        })
    }

    /// The first term that has another sort than the first whose sort is
    /// known; `like` says it by the place of that one.
    fn first_unlike(&self, terms: &[usize], like: impl Fn(usize) -> String) -> Option<Wrong> {
        let first = terms.iter().position(|term| self.sorts[*term].is_some())?;
        let sort = self.sorts[terms[first]]?;
        let mut terms = terms.iter().enumerate();
        terms.find_map(|(part, term)| self.expect(part, *term, sort, || like(first)))
    }

    /// Any sort agrees with everything. `place` goes on behind the sort's
    /// name.
    fn expect(
        &self,
        part: usize,
        term: usize,
        sort: SType,
        place: impl Fn() -> String,
    ) -> Option<Wrong> {
        let found = self.sorts[term].filter(|found| *found != sort)?;
        Some(Wrong {
            part,
            expected: self.shown(sort) + &place(),
            found,
        })
    }

    /// A term that must be true or false.
    fn truth(&mut self, record: Record, term: usize, what: &str) {
        if let Some(wrong) = self.expect(0, term, TRUTH, || format!(" as {what}")) {
            let found = self.shown(wrong.found);
            let complaint = Complaint::of_sorts(record, wrong.expected, found);
            self.complaints.push(complaint);
        }
    }

    fn complain(&mut self, term: usize, expected: String, found: String) {
        let complaint = Complaint::of_sorts(Record::Term(term), expected, found);
        self.complaints.push(complaint);
    }

    fn complain_of(&mut self, term: usize, wrong: Option<Wrong>) {
        if let Some(wrong) = wrong {
            let found = self.shown(wrong.found);
            let complaint = Complaint::of_sorts(Record::Term(term), wrong.expected, found);
            self.complaints.push(complaint.about_part(wrong.part));
        }
    }

    /// A sort by its name, with its number where others have that name.
    fn shown(&self, sort: SType) -> String {
        let number = match sort {
            SType::SBool => return format!("`{BOOL_TYPE}`"),
            SType::SInt => return format!("`{INT_TYPE}`"),
            SType::SUserType(number) => number,
        };
        let name = self.program.types[number].name;
        let bearers = self.program.types.iter().filter(|typ| typ.name == name);
        let quoted = format!("`{}`", text_of(name));
        match bearers.count() {
            1 => quoted,
            _ => format!("{quoted} (type {})", number + FIRST_USER_TYPE as usize),
        }
    }
}

fn arguments(count: &str, name: &[u8]) -> String {
    let noun = if count == "1" {
        "argument"
    } else {
        "arguments"
    };
    format!("{count} {noun} of `{}`", text_of(name))
}
