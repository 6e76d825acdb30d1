//! Random books with good names and good sorts: every kind of term, every
//! operator, and operators that nobody knows, which may stand for any sort.

use crate::names::ODD_NAMES;
use leskofar_reference::book::{BOOL, INT};
use leskofar_reference::maker::Maker;
use leskofar_reference::random::{Random, AT_TIMES, OFTEN, RARELY};

/// An operator's least and most arguments, what they are, and what it gives.
/// `None` for arguments that all have one sort, whichever it is.
pub type Signature = (&'static str, usize, usize, Option<u32>, u32);

const MANY: usize = 4;
pub const SIGNATURES: [Signature; 17] = [
    ("=", 2, MANY, None, BOOL),
    ("distinct", 2, MANY, None, BOOL),
    ("=>", 2, MANY, Some(BOOL), BOOL),
    ("and", 2, MANY, Some(BOOL), BOOL),
    ("or", 2, MANY, Some(BOOL), BOOL),
    ("xor", 2, MANY, Some(BOOL), BOOL),
    ("not", 1, 1, Some(BOOL), BOOL),
    ("<", 2, MANY, Some(INT), BOOL),
    ("<=", 2, MANY, Some(INT), BOOL),
    (">", 2, MANY, Some(INT), BOOL),
    (">=", 2, MANY, Some(INT), BOOL),
    ("+", 2, MANY, Some(INT), INT),
    ("*", 2, MANY, Some(INT), INT),
    ("div", 2, MANY, Some(INT), INT),
    ("-", 1, MANY, Some(INT), INT),
    ("mod", 2, 2, Some(INT), INT),
    ("abs", 1, 1, Some(INT), INT),
];

/// Names of literals; bars are put around them.
const LITERALS: [&str; 6] = ["red", "blue", "", "a b", "red:Shade", "5"];
const UNKNOWN: [&str; 5] = ["seq.len", "|no one|", "-7", "12", "#b01"];
const MOST_TYPES: usize = 3;
const MOST_SYMBOLS: usize = 5;
const MOST_INPUTS: usize = 3;
const MOST_AXIOMS: usize = 2;
const MOST_NODES: usize = 4;
const MOST_GOALS: usize = 2;
const MOST_BOUND: usize = 2;
const DEPTH: usize = 3;
const NUMBERS: [i64; 5] = [0, 1, -5, 7, i64::MIN];

struct Writer<'r> {
    random: &'r mut Random,
    maker: Maker,
    /// Types that literals can be of: their names have no bars.
    plain_types: Vec<u32>,
    types: Vec<u32>,
    /// Each with its type.
    constants: Vec<(u32, u32)>,
    /// Each with its inputs and what it gives.
    functions: Vec<(u32, Vec<u32>, u32)>,
}

pub fn sorted_book(random: &mut Random) -> Maker {
    let mut writer = Writer {
        random,
        maker: Maker::default(),
        plain_types: vec![BOOL, INT],
        types: vec![BOOL, INT],
        constants: Vec::new(),
        functions: Vec::new(),
    };
    writer.add_types();
    writer.add_symbols();
    writer.add_premises();
    writer.maker
}

impl Writer<'_> {
    fn add_types(&mut self) {
        for number in 0..self.random.up_to(MOST_TYPES) {
            let has_bars = self.random.one_in(AT_TIMES);
            let name = match self.random.one_in(AT_TIMES) {
                _ if has_bars => format!("|kind {number}|"),
                true => format!("kind {number}"),
                false => format!("Kind_{number}"),
            };
            let typ = self.maker.user_type(&name);
            self.types.push(typ);
            if !has_bars {
                self.plain_types.push(typ);
            }
        }
    }

    /// Constants of each type, and functions; now and then with odd names
    /// that are good all the same.
    fn add_symbols(&mut self) {
        let odd = self.random.pick(&ODD_NAMES);
        for number in 0..=self.random.up_to(MOST_SYMBOLS) {
            let is_odd = number == 0 && self.random.one_in(OFTEN);
            let name = if is_odd {
                odd.to_string()
            } else {
                format!("c{number}")
            };
            let typ = self.typ();
            let constant = self.maker.constant(&name, typ);
            self.constants.push((constant, typ));
        }
        for number in 0..self.random.up_to(MOST_SYMBOLS) {
            let inputs: Vec<u32> = (0..self.random.up_to(MOST_INPUTS))
                .map(|_| self.typ())
                .collect();
            let typ = self.typ();
            let function = self.maker.function(&format!("f{number}"), &inputs, typ);
            self.functions.push((function, inputs, typ));
        }
    }

    fn add_premises(&mut self) {
        for _ in 0..self.random.up_to(MOST_AXIOMS) {
            let has_term = !self.random.one_in(AT_TIMES);
            let term = has_term.then(|| self.term(BOOL, DEPTH));
            self.maker.axiom(term, &[]);
        }
        for node in 0..self.random.up_to(MOST_NODES) {
            let parent = self.random.up_to(node) as u32;
            let term = self.term(BOOL, DEPTH);
            // Nobody looks at traces.
            self.maker.traced_context(parent, term, "|a b");
        }
        for _ in 0..self.random.up_to(MOST_GOALS) {
            let typ = self.typ();
            self.term(typ, DEPTH);
        }
    }

    fn typ(&mut self) -> u32 {
        self.random.pick(&self.types)
    }

    /// A term of a sort.
    fn term(&mut self, sort: u32, depth: usize) -> u32 {
        if depth == 0 || self.random.one_in(AT_TIMES) {
            return self.leaf(sort);
        }
        match self.random.below(6) {
            0 => self.unknown(depth),
            1 => self.if_then_else(sort, depth),
            2 => self.let_expr(sort, depth),
            3 if sort == BOOL => self.quantifier(depth),
            4 => self.function(sort, depth),
            _ => self.operator(sort, depth),
        }
    }

    fn leaf(&mut self, sort: u32) -> u32 {
        let of_sort: Vec<u32> = (self.constants.iter())
            .filter(|(_, typ)| *typ == sort)
            .map(|(constant, _)| *constant)
            .collect();
        if !of_sort.is_empty() && self.random.one_in(OFTEN) {
            let constant = self.random.pick(&of_sort);
            return self.maker.id(constant);
        }
        if self.plain_types.contains(&sort) && self.random.one_in(AT_TIMES) {
            let text = self.random.pick(&LITERALS);
            return self.maker.literal(text, sort);
        }
        match sort {
            BOOL => {
                let b = self.random.one_in(OFTEN);
                self.maker.boolean(b)
            }
            INT if self.random.one_in(RARELY) => self.maker.literal("%tag", INT),
            INT => {
                let x = self.random.pick(&NUMBERS);
                self.maker.integer(x)
            }
            _ => self.maker.built_in("unknown", &[]),
        }
    }

    fn terms(&mut self, sort: u32, count: usize, depth: usize) -> Vec<u32> {
        (0..count).map(|_| self.term(sort, depth - 1)).collect()
    }

    /// An operator that nobody knows, of anything.
    fn unknown(&mut self, depth: usize) -> u32 {
        let typ = self.typ();
        let count = self.random.up_to(MANY);
        let args = self.terms(typ, count, depth);
        let name = self.random.pick(&UNKNOWN);
        self.maker.built_in(name, &args)
    }

    fn operator(&mut self, sort: u32, depth: usize) -> u32 {
        let giving: Vec<Signature> = (SIGNATURES.into_iter())
            .filter(|(.., gives)| *gives == sort)
            .collect();
        if giving.is_empty() {
            return self.leaf(sort);
        }
        let (name, least, most, takes, _) = self.random.pick(&giving);
        let takes = takes.unwrap_or_else(|| self.typ());
        let count = least + self.random.up_to(most - least);
        let args = self.terms(takes, count, depth);
        if self.random.one_in(RARELY) {
            self.maker.built_in(&format!("|{name}|"), &args)
        } else {
            self.maker.built_in(name, &args)
        }
    }

    fn function(&mut self, sort: u32, depth: usize) -> u32 {
        let giving: Vec<usize> = (0..self.functions.len())
            .filter(|function| self.functions[*function].2 == sort)
            .collect();
        if giving.is_empty() {
            return self.operator(sort, depth);
        }
        let at = self.random.pick(&giving);
        let (function, inputs, _) = self.functions[at].clone();
        let args: Vec<u32> = (inputs.iter())
            .map(|typ| self.term(*typ, depth - 1))
            .collect();
        self.maker.apply(function, &args)
    }

    fn if_then_else(&mut self, sort: u32, depth: usize) -> u32 {
        let guard = self.term(BOOL, depth - 1);
        let [thn, els] = [(); 2].map(|()| self.term(sort, depth - 1));
        self.maker.if_then_else(guard, thn, els)
    }

    fn let_expr(&mut self, sort: u32, depth: usize) -> u32 {
        let (constant, typ) = self.random.pick(&self.constants);
        let rhs = self.term(typ, depth - 1);
        let body = self.term(sort, depth - 1);
        self.maker.let_expr(constant, rhs, body)
    }

    fn quantifier(&mut self, depth: usize) -> u32 {
        let bound: Vec<u32> = (0..self.random.up_to(MOST_BOUND))
            .map(|_| self.random.pick(&self.constants).0)
            .collect();
        let typ = self.typ();
        let count = self.random.up_to(MOST_BOUND);
        let terms = self.terms(typ, count, depth);
        let pattern = self.maker.pattern(&terms);
        let body = self.term(BOOL, depth - 1);
        let univ = self.random.one_in(OFTEN);
        self.maker.quantifier(univ, &bound, &[pattern], body)
    }
}
