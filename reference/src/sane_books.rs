//! Random books with sane names and good sorts: symbols of their own, with bars
//! and without, the operators of SMT-LIB's theories with as many arguments as they take,
//! and negative numbers wherever a number can stand.

use crate::book::{kind, Section, BOOL, INT};
use crate::book_test::MOST_DEPTH;
use crate::maker::Maker;
use crate::program::SType;
use crate::random::{Random, AT_TIMES, HARDLY_EVER, OFTEN, RARELY};
use crate::smtlib::signatures::{operators, signature, Signature};
use std::collections::BTreeMap;

/// Simple symbols of every sign, some nearly words or numbers; names that need
/// bars, reserved words among them; and names that have them.
const TYPES: [&str; 5] = ["T", "Shade-2", "int?", "red 40", "let"];
const CONSTANTS: [&str; 18] = [
    "x", "box_1", "-x", "--5", "+5", "a.b", "let!", "Push", "%tag", "<>", "~&^", "y@$/*", "40",
    "dark red", "|as is|", "forall", "-5", "||",
];
const FUNCTIONS: [&str; 8] = [
    "f",
    "g-1",
    "=f",
    "-f",
    "true?",
    "dye of",
    "|f g|",
    "declare-fun",
];
/// A type that no literal is of.
const BARRED_TYPE: &str = "|as is|";
/// What stands in a literal's name between bars.
const LITERALS: [&str; 6] = ["red", "dark blue", "", "-5", "(- 5)", "a:b;"];
const TAG: &str = "%tag";
const NUMBERS: [i64; 8] = [0, 1, -1, -5, i64::MAX, i64::MIN, i64::MIN + 1, -(1 << 32)];
/// The most arguments of an operator that takes any number of them.
const MANY: usize = 4;
/// The most inputs of a function, variables, patterns and terms of a pattern.
const FEW: usize = 2;
/// How deep a term nests, and from how many terms on a book has only leaves,
/// which keeps it within its limits.
const NESTING: usize = 3;
const ENOUGH_TERMS: usize = Section::Terms.most() / 2;
/// How often a book is a chain as deep as it may be, as `one_in`: these are
/// long in walking.
pub const DEEP: usize = 256;
/// Nodes of usual books, and goals.
const NODES: [usize; 5] = [0, 1, 2, 4, 7];
const GOALS: usize = 3;

pub fn sane_book(random: &mut Random) -> Maker {
    let mut writer = Writer {
        random,
        maker: Maker::default(),
        names: BTreeMap::new(),
        types: vec![BOOL, INT],
        barred: None,
        constants: Vec::new(),
        functions: Vec::new(),
    };
    writer.add_symbols();
    writer.add_axioms();
    writer.add_nodes();
    for _ in 0..GOALS {
        writer.term(BOOL, NESTING);
    }
    writer.maker
}

#[derive(Clone)]
struct Function {
    number: u32,
    inputs: Vec<u32>,
    typ: u32,
}

struct Writer<'r> {
    random: &'r mut Random,
    maker: Maker,
    /// Of operators and literals.
    names: BTreeMap<&'static str, u32>,
    types: Vec<u32>,
    barred: Option<u32>,
    /// Each with its type.
    constants: Vec<[u32; 2]>,
    functions: Vec<Function>,
}

impl Writer<'_> {
    fn add_symbols(&mut self) {
        for name in TYPES {
            let typ = self.maker.user_type(name);
            self.types.push(typ);
        }
        let barred = self.maker.user_type(BARRED_TYPE);
        self.barred = Some(barred);
        self.types.push(barred);
        // Of each type one at least.
        for (number, name) in CONSTANTS.into_iter().enumerate() {
            let typ = match self.types.get(number) {
                Some(typ) => *typ,
                None => self.typ(),
            };
            let constant = self.maker.constant(name, typ);
            self.constants.push([constant, typ]);
        }
        for name in FUNCTIONS {
            let inputs = self.few(0, Self::typ);
            let typ = self.typ();
            let number = self.maker.function(name, &inputs, typ);
            self.functions.push(Function {
                number,
                inputs,
                typ,
            });
        }
    }

    /// Axioms of functions, rarely one without a term.
    fn add_axioms(&mut self) {
        for function in self.functions.clone() {
            if self.random.one_in(OFTEN) {
                let is_missing = self.random.one_in(HARDLY_EVER);
                let term = (!is_missing).then(|| self.quantifier(NESTING));
                let axiom = self.maker.axiom(term, &[function.number]);
                self.maker.explained_by(function.number, &[axiom]);
            }
        }
    }

    /// A chain that is as deep as it may be, rarely; else a tree.
    fn add_nodes(&mut self) {
        let is_chain = self.random.one_in(DEEP);
        let nodes = if is_chain {
            MOST_DEPTH
        } else {
            self.random.pick(&NODES)
        };
        for node in 0..nodes {
            let parent = if is_chain {
                node
            } else {
                self.random.up_to(node)
            };
            let premise = self.term(BOOL, NESTING);
            self.maker.context(parent as u32, premise);
        }
    }

    /// A term of a sort.
    fn term(&mut self, sort: u32, nesting: usize) -> u32 {
        if nesting == 0 || self.maker.terms.len() > ENOUGH_TERMS {
            return self.leaf(sort);
        }
        let inner = nesting - 1;
        match self.random.below(6) {
            0 => self.leaf(sort),
            1 => {
                let guard = self.term(BOOL, inner);
                let [thn, els] = [(); 2].map(|()| self.term(sort, inner));
                self.maker.if_then_else(guard, thn, els)
            }
            2 => {
                let [v, typ] = self.random.pick(&self.constants);
                let [rhs, body] = [typ, sort].map(|sort| self.term(sort, inner));
                self.maker.let_expr(v, rhs, body)
            }
            3 if sort == BOOL => self.quantifier(inner),
            4 => self.function(sort, inner),
            _ => self.operator(sort, inner),
        }
    }

    fn leaf(&mut self, sort: u32) -> u32 {
        if sort == INT && self.random.one_in(OFTEN) {
            return self.number();
        }
        if sort == BOOL && self.random.one_in(AT_TIMES) {
            let b = self.random.one_in(OFTEN);
            return self.maker.boolean(b);
        }
        if self.barred != Some(sort) && self.random.one_in(AT_TIMES) {
            let text = self.random.pick(&LITERALS);
            return self.literal(text, sort);
        }
        let of_sort = self.constants.iter().filter(|[_, typ]| *typ == sort);
        let of_sort: Vec<u32> = of_sort.map(|[constant, _]| *constant).collect();
        let constant = self.random.pick(&of_sort);
        self.maker.id(constant)
    }

    fn number(&mut self) -> u32 {
        if self.random.one_in(RARELY) {
            return self.literal(TAG, INT);
        }
        let any = self.random.number() as i64;
        let x = self.random.pick(&NUMBERS);
        let is_any = self.random.one_in(AT_TIMES);
        self.maker.integer(if is_any { any } else { x })
    }

    fn literal(&mut self, text: &'static str, typ: u32) -> u32 {
        let name = self.name(text);
        self.maker.term(kind::CUSTOM_LITERAL, [name, typ])
    }

    fn operator(&mut self, sort: u32, inner: usize) -> u32 {
        let known = operators().filter_map(|name| Some((name, signature(name.as_bytes())?)));
        let giving = known.filter(|(_, operator)| type_number(operator.gives) == Some(sort));
        let giving: Vec<(&str, Signature)> = giving.collect();
        if giving.is_empty() {
            return self.function(sort, inner);
        }
        let (name, operator) = self.random.pick(&giving);
        let takes = operator.takes.and_then(type_number);
        let takes = takes.unwrap_or_else(|| self.typ());
        let more = operator.most.unwrap_or(MANY) - operator.least;
        let count = operator.least + self.random.up_to(more);
        let args: Vec<u32> = (0..count).map(|_| self.term(takes, inner)).collect();
        let name = self.name(name);
        let [start, count] = self.maker.list(&args);
        self.maker.term(kind::BUILT_IN, [name, start, count])
    }

    /// A leaf where no function gives the sort.
    fn function(&mut self, sort: u32, inner: usize) -> u32 {
        let giving = self.functions.iter().filter(|f| f.typ == sort);
        let giving: Vec<&Function> = giving.collect();
        if giving.is_empty() {
            return self.leaf(sort);
        }
        let Function { number, inputs, .. } = self.random.pick(&giving).clone();
        let args = inputs.iter().map(|typ| self.term(*typ, inner));
        let args: Vec<u32> = args.collect();
        self.maker.apply(number, &args)
    }

    /// Rarely without variables, with patterns or without.
    fn quantifier(&mut self, inner: usize) -> u32 {
        let least = usize::from(!self.random.one_in(RARELY));
        let vv = self.few(least, |writer| writer.random.pick(&writer.constants)[0]);
        let mut patterns = Vec::new();
        if self.maker.patterns.len() + FEW <= Section::Patterns.most() {
            patterns = self.few(0, |writer| {
                let terms = writer.few(1, |writer| {
                    let typ = writer.typ();
                    writer.term(typ, inner.min(1))
                });
                writer.maker.pattern(&terms)
            });
        }
        let body = self.term(BOOL, inner);
        let univ = self.random.one_in(OFTEN);
        self.maker.quantifier(univ, &vv, &patterns, body)
    }

    fn few(&mut self, least: usize, mut one: impl FnMut(&mut Self) -> u32) -> Vec<u32> {
        let count = least + self.random.up_to(FEW - least);
        (0..count).map(|_| one(self)).collect()
    }

    fn typ(&mut self) -> u32 {
        self.random.pick(&self.types)
    }

    /// The number of a name, which is added once.
    fn name(&mut self, text: &'static str) -> u32 {
        let maker = &mut self.maker;
        *self.names.entry(text).or_insert_with(|| maker.name(text))
    }
}

/// Operators take and give built-in types alone.
fn type_number(typ: SType) -> Option<u32> {
    match typ {
        SType::SBool => Some(BOOL),
        SType::SInt => Some(INT),
        SType::SUserType(_) => None,
    }
}
