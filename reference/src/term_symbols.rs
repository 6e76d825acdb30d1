//! The symbols of a term that a solver has to be told of, from the book alone,
//! and how each is declared.

use crate::lower::{custom_literal_to_sexpr_name, TAG};
use crate::program::{Program, RExpr, ROperator, SType};
use crate::symbols::{bare, symbol_text};

/// A record, or a literal by its text and type.
#[derive(Clone, Copy, Debug, PartialEq, Eq)]
pub enum Symbol<'b> {
    Sort(usize),
    Constant(usize),
    Function(usize),
    Literal { s: &'b [u8], typ: SType },
}

impl Symbol<'_> {
    /// Sorts have a name space of their own.
    pub fn is_sort(&self) -> bool {
        matches!(self, Symbol::Sort(_))
    }

    /// The name that it is printed by, without bars around the whole.
    pub fn name(&self, program: &Program) -> Vec<u8> {
        bare(&self.printed(program)).to_vec()
    }

    fn printed(&self, program: &Program) -> Vec<u8> {
        match self {
            Symbol::Sort(typ) => symbol_text(program.types[*typ].name).into_owned(),
            Symbol::Constant(v) => symbol_text(program.constants[*v].name).into_owned(),
            Symbol::Function(f) => symbol_text(program.functions[*f].name).into_owned(),
            Symbol::Literal { s, typ } => custom_literal_to_sexpr_name(program, s, *typ),
        }
    }

    /// The line that declares it.
    pub fn declaration(&self, program: &Program) -> Vec<u8> {
        let name = self.printed(program);
        let (inputs, typ): (&[SType], SType) = match self {
            Symbol::Sort(_) => return [b"(declare-sort ", &name[..], b" 0)"].concat(),
            Symbol::Constant(v) => (&[], program.constants[*v].typ),
            Symbol::Function(f) => (
                &program.functions[*f].input_types,
                program.functions[*f].typ,
            ),
            Symbol::Literal { typ, .. } => (&[], *typ),
        };
        let inputs: Vec<Vec<u8>> = inputs.iter().map(|typ| sort(program, *typ)).collect();
        let inputs = inputs.join(&b' ');
        let typ = sort(program, typ);
        let parts: [&[u8]; 7] = [b"(declare-fun ", &name, b" (", &inputs, b") ", &typ, b")"];
        parts.concat()
    }
}

fn sort(program: &Program, typ: SType) -> Vec<u8> {
    match typ {
        SType::SBool => b"Bool".to_vec(),
        SType::SInt => b"Int".to_vec(),
        SType::SUserType(decl) => Symbol::Sort(decl).printed(program),
    }
}

/// What a built-in operator is printed as, without bars around the whole.
pub fn operator_name(name: &[u8]) -> &[u8] {
    if name.is_empty() {
        b"()"
    } else {
        bare(name)
    }
}

/// What stands in a term, as often as it stands there, patterns that are not
/// printed included.
#[derive(Clone, Debug, Default, PartialEq, Eq)]
pub struct TermSymbols<'b> {
    /// Each with the sorts that it names behind it.
    pub symbols: Vec<Symbol<'b>>,
    /// The names of built-in operators, as they are printed.
    pub operators: Vec<&'b [u8]>,
}

impl<'b> TermSymbols<'b> {
    pub fn of(program: &Program<'b>, term: usize) -> TermSymbols<'b> {
        let mut found = TermSymbols::default();
        found.add(program, term, &mut Vec::new());
        found
    }

    fn add(&mut self, program: &Program<'b>, term: usize, bound: &mut Vec<usize>) {
        let outer = bound.len();
        match &program.terms[term] {
            RExpr::Boolean(_) | RExpr::Integer(_) => {}
            // It goes out as a number.
            RExpr::CustomLiteral { s, .. } if *s == TAG => {}
            RExpr::CustomLiteral { s, typ } => {
                self.symbols.push(Symbol::Literal { s, typ: *typ });
                self.add_sort(*typ);
            }
            RExpr::Id(v) if bound.contains(v) => {}
            RExpr::Id(v) => {
                self.symbols.push(Symbol::Constant(*v));
                self.add_sort(program.constants[*v].typ);
            }
            RExpr::FuncAppl { op, args } => {
                self.add_operator(program, op);
                for arg in args {
                    self.add(program, *arg, bound);
                }
            }
            RExpr::IfThenElse { guard, thn, els } => {
                for part in [guard, thn, els] {
                    self.add(program, *part, bound);
                }
            }
            RExpr::LetExpr { v, rhs, body } => {
                self.add(program, *rhs, bound);
                bound.push(*v);
                self.add(program, *body, bound);
            }
            RExpr::QuantifierExpr { vv, .. } => {
                bound.extend(vv);
                for v in vv {
                    self.add_sort(program.constants[*v].typ);
                }
                for part in program.children(term) {
                    self.add(program, part, bound);
                }
            }
        }
        bound.truncate(outer);
    }

    fn add_operator(&mut self, program: &Program<'b>, op: &ROperator<'b>) {
        match op {
            ROperator::BuiltInOperator(name) => self.operators.push(operator_name(name)),
            ROperator::UserDefinedFunction(number) => {
                let function = &program.functions[*number];
                self.symbols.push(Symbol::Function(*number));
                for typ in function.input_types.iter().chain([&function.typ]) {
                    self.add_sort(*typ);
                }
            }
        }
    }

    fn add_sort(&mut self, typ: SType) {
        if let SType::SUserType(decl) = typ {
            self.symbols.push(Symbol::Sort(decl));
        }
    }
}
