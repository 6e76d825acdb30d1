//! Books of terms at the borders of printing, and of terms that nest as deep
//! as a book can.

use leskofar_reference::book::{kind, Section, BOOL, INT};
use leskofar_reference::maker::Maker;

const INTEGERS: [i64; 14] = [
    0,
    1,
    -1,
    9,
    10,
    -9,
    -10,
    u32::MAX as i64,
    1 << 32,
    -(1 << 32),
    i64::MAX,
    i64::MIN,
    i64::MIN + 1,
    1_000_000_000_000_000_000,
];
/// The tag itself, and texts that are not quite it.
const LITERALS: [&str; 8] = ["", "a", "a:b", "%tag", "%tags", "%ta", "%TAG", "a b"];

/// Terms of every kind with what is rare in them: names with bars and names that
/// get them, operators without a name, numbers at their borders, texts like the tag's, quantifiers without variables and with
/// every sort of pattern.
pub fn borders() -> Maker {
    let mut m = Maker::default();
    for b in [false, true] {
        m.boolean(b);
    }
    for x in INTEGERS {
        m.integer(x);
    }
    let types = [BOOL, INT, m.user_type("T"), m.user_type("red 40")];
    for s in LITERALS {
        for typ in types {
            m.literal(s, typ);
        }
    }
    let named = types.map(|typ| m.constant("x", typ));
    let barred = types.map(|typ| m.constant("||", typ));
    let tag = m.constant("%tag", INT);
    let gets_bars = m.constant("let", types[3]);
    for v in [named[0], barred[0], tag, gets_bars] {
        m.id(v);
    }
    for op in ["", "and", "%tag"] {
        for count in 0..3 {
            let args = ids(&mut m, named[0], count);
            m.built_in(op, &args);
        }
    }
    for name in ["|f g|", "f g", "f"] {
        let f = m.function(name, &[], INT);
        for count in 0..3 {
            let args = ids(&mut m, barred[0], count);
            m.apply(f, &args);
        }
    }
    let terms = ids(&mut m, named[0], 3);
    m.if_then_else(terms[0], terms[1], terms[2]);
    for v in [named[0], barred[0]] {
        let terms = ids(&mut m, v, 2);
        m.let_expr(v, terms[0], terms[1]);
    }
    add_quantifiers(&mut m, &named, &barred);
    m
}

/// So many terms that are the constant v.
fn ids(m: &mut Maker, v: u32, count: usize) -> Vec<u32> {
    (0..count).map(|_| m.id(v)).collect()
}

fn add_quantifiers(m: &mut Maker, named: &[u32], barred: &[u32]) {
    let twice = [named[0], named[0]];
    let empty = m.pattern(&[]);
    for univ in [false, true] {
        for vv in [&[], &named[..1], named, barred, &twice] {
            for count in 0..3 {
                let terms = ids(m, named[1], count);
                let pattern = m.pattern(&terms);
                for patterns in [&[][..], &[empty, empty], &[pattern, empty]] {
                    let body = m.boolean(univ);
                    m.quantifier(univ, vv, patterns, body);
                }
            }
        }
    }
    // Quantifiers without variables, below each other and as parts.
    let terms = ids(m, named[0], 1);
    let pattern = m.pattern(&terms);
    let mut bare = m.integer(-1);
    for patterns in [&[][..], &[empty], &[pattern]] {
        bare = m.quantifier(true, &[], patterns, bare);
    }
    let args = [bare];
    let args = [m.built_in("not", &args), m.boolean(true)];
    m.built_in("or", &args);
}

/// How a term holds the next one inside it.
type Step = fn(&mut Nest, u32) -> u32;

struct Nest {
    maker: Maker,
    /// What the leaves are, if they are not the constant.
    number: Option<i64>,
    /// Its constant, and range of a list of that constant alone.
    v: u32,
    vv: [u32; 2],
    /// The name of its operator.
    op: u32,
    /// The range of a list with an empty pattern alone.
    patterns: [u32; 2],
}

impl Nest {
    fn leaf(&mut self) -> u32 {
        match self.number {
            Some(x) => self.maker.integer(x),
            None => self.maker.id(self.v),
        }
    }

    fn appl(&mut self, args: &[u32]) -> u32 {
        let [start, count] = self.maker.list(args);
        self.maker.term(kind::BUILT_IN, [self.op, start, count])
    }

    fn quantifier(&mut self, vv: [u32; 2], patterns: [u32; 2], body: u32) -> u32 {
        let fields = [1, vv[0], vv[1], patterns[0], patterns[1], body];
        self.maker.term(kind::QUANTIFIER, fields)
    }
}

/// Each shape, with the terms that a step of it adds.
const STEPS: [(&str, usize, Step); 13] = [
    ("only arguments", 1, |n, inner| n.appl(&[inner])),
    ("first arguments", 2, |n, inner| {
        let leaf = n.leaf();
        n.appl(&[inner, leaf])
    }),
    ("last arguments", 2, |n, inner| {
        let leaf = n.leaf();
        n.appl(&[leaf, inner])
    }),
    ("guards", 3, |n, inner| {
        let [thn, els] = [n.leaf(), n.leaf()];
        n.maker.if_then_else(inner, thn, els)
    }),
    ("then branches", 3, |n, inner| {
        let [guard, els] = [n.leaf(), n.leaf()];
        n.maker.if_then_else(guard, inner, els)
    }),
    ("else branches", 3, |n, inner| {
        let [guard, thn] = [n.leaf(), n.leaf()];
        n.maker.if_then_else(guard, thn, inner)
    }),
    ("right sides", 2, |n, inner| {
        let body = n.leaf();
        n.maker.let_expr(n.v, inner, body)
    }),
    ("let bodies", 2, |n, inner| {
        let rhs = n.leaf();
        n.maker.let_expr(n.v, rhs, inner)
    }),
    ("quantifier bodies", 1, |n, inner| {
        n.quantifier(n.vv, [0, 0], inner)
    }),
    ("bodies before a pattern", 1, |n, inner| {
        n.quantifier(n.vv, n.patterns, inner)
    }),
    ("bodies without variables", 1, |n, inner| {
        n.quantifier([0, 0], n.patterns, inner)
    }),
    ("pattern terms", 3, |n, inner| {
        let [body, leaf] = [n.leaf(), n.leaf()];
        let pattern = n.maker.pattern(&[inner, leaf]);
        let empty = n.maker.lists[n.patterns[0] as usize];
        let patterns = n.maker.list(&[pattern, empty]);
        n.quantifier(n.vv, patterns, body)
    }),
    ("last pattern terms", 3, |n, inner| {
        let [body, leaf] = [n.leaf(), n.leaf()];
        let pattern = n.maker.pattern(&[leaf, inner]);
        let patterns = n.maker.list(&[pattern]);
        n.quantifier([0, 0], patterns, body)
    }),
];

/// For each shape a book whose last term has all the others inside it, as many
/// as a book can have.
pub fn nests() -> Vec<(&'static str, Maker)> {
    nests_of(Section::Terms.most())
}

/// The same with so many terms at most.
pub fn nests_of(most: usize) -> Vec<(&'static str, Maker)> {
    STEPS
        .map(|(name, terms, step)| (name, nest(most, terms, step, None)))
        .into()
}

/// The same with a number for each leaf, and as many terms as there can be.
pub fn nests_of_number(x: i64) -> Vec<(&'static str, Maker)> {
    let most = Section::Terms.most();
    STEPS
        .map(|(name, terms, step)| (name, nest(most, terms, step, Some(x))))
        .into()
}

/// The same of one shape alone.
pub fn nest_of(shape: &str, most: usize) -> Maker {
    let found = STEPS.into_iter().find(|(name, ..)| *name == shape);
    let (_, terms, step) = found.expect("the name of a shape");
    nest(most, terms, step, None)
}

/// A term with so many arguments of so many letters, the last of its book.
pub fn flat(arguments: usize, letters: usize) -> Maker {
    flat_of(arguments, &"v".repeat(letters))
}

/// The same with a name that is given.
pub fn flat_of(arguments: usize, name: &str) -> Maker {
    let mut m = Maker::default();
    let v = m.constant(name, INT);
    let args = ids(&mut m, v, arguments);
    m.built_in("and", &args);
    m
}

/// The same with arguments that are one number.
pub fn flat_numbers(arguments: usize, x: i64) -> Maker {
    let mut m = Maker::default();
    let args: Vec<u32> = (0..arguments).map(|_| m.integer(x)).collect();
    m.built_in("+", &args);
    m
}

/// So many nodes below each other, each with a flat term, and so many terms in
/// all; the last is the last node's.
pub fn path_of(nodes: usize, terms: usize, letters: usize) -> Maker {
    let mut m = Maker::default();
    let v = m.constant(&"v".repeat(letters), INT);
    for node in 0..nodes {
        let args = ids(&mut m, v, terms / nodes - 1);
        let premise = m.built_in("and", &args);
        m.context(node as u32, premise);
    }
    m
}

/// Every kind of term that has a name, and a node, all names being the same of
/// so many letters.
pub fn long_names(letters: usize) -> Maker {
    let mut m = Maker::default();
    let typ = m.user_type(&"n".repeat(letters));
    let [name] = m.types[0];
    m.constants.push([name, typ]);
    m.functions.push([name, typ, 0, 0, 0, 0]);
    let v = m.constants.len() as u32 - 1;
    let f = m.functions.len() as u32 - 1;
    let premise = m.term(kind::CUSTOM_LITERAL, [name, typ]);
    m.context(0, premise);
    let args = [m.id(v), m.term(kind::CUSTOM_LITERAL, [name, typ])];
    let [start, count] = m.list(&args);
    let built_in = m.term(kind::BUILT_IN, [name, start, count]);
    let applied = m.apply(f, &[built_in]);
    let body = m.id(v);
    let bound = m.let_expr(v, applied, body);
    let hints = [m.id(v)];
    let pattern = m.pattern(&hints);
    m.quantifier(false, &[v, v], &[pattern], bound);
    m
}

fn nest(most: usize, terms: usize, step: Step, number: Option<i64>) -> Maker {
    let mut maker = Maker::default();
    let v = maker.constant("v", INT);
    let vv = maker.list(&[v]);
    let op = maker.name("and");
    let empty = maker.pattern(&[]);
    let patterns = maker.list(&[empty]);
    let mut n = Nest {
        maker,
        number,
        v,
        vv,
        op,
        patterns,
    };
    let mut inner = n.leaf();
    while n.maker.terms.len() + terms <= most {
        // There are fewer patterns than terms: arguments go on from there.
        let patterns_left = n.maker.patterns.len() < Section::Patterns.most();
        inner = if patterns_left {
            step(&mut n, inner)
        } else {
            let leaf = n.leaf();
            n.appl(&[inner, leaf])
        };
    }
    n.maker
}
