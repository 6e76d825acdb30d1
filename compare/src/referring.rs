//! Books with as many terms as there can be, some of which are referred to: by
//! every sort of record that can refer to a term.

use leskofar_reference::book::{Section, BOOL};
use leskofar_reference::maker::Maker;
use leskofar_reference::program;

pub const TERMS: usize = Section::Terms.most();
/// The node that all contexts hang below.
pub const ROOT: u32 = program::ROOT as u32;
/// The constant and the function that every book has.
const CONSTANT: u32 = 0;
const FUNCTION: u32 = 0;

/// Writes references to leaves, which come first. A term that refers is behind
/// all of them, so that what it refers to is smaller.
pub struct Pen {
    maker: Maker,
    /// Leaves that nothing else may refer to.
    targets: Vec<u32>,
    /// The next leaf for a place that has to hold some term.
    next: u32,
}

impl Pen {
    fn new(leaves: usize, targets: &[u32]) -> Pen {
        let mut maker = Maker::default();
        maker.constant("c", BOOL);
        maker.function("f", &[], BOOL);
        for _ in 0..leaves {
            maker.boolean(true);
        }
        Pen {
            maker,
            targets: targets.to_vec(),
            next: 0,
        }
    }

    fn other(&mut self) -> u32 {
        while self.targets.contains(&self.next) {
            self.next += 1;
        }
        self.next += 1;
        self.next - 1
    }

    fn quantifier(&mut self, patterns: &[&[u32]], body: u32) {
        let patterns: Vec<u32> = patterns
            .iter()
            .map(|terms| self.maker.pattern(terms))
            .collect();
        self.maker.quantifier(true, &[], &patterns, body);
    }
}

/// A record that refers to a leaf.
#[derive(Clone, Copy)]
pub struct Source {
    pub name: &'static str,
    /// Terms that it takes.
    terms: usize,
    refer: fn(&mut Pen, u32),
}

const fn source(name: &'static str, terms: usize, refer: fn(&mut Pen, u32)) -> Source {
    Source { name, terms, refer }
}

/// In the order in which a book's references are gone through: terms, axioms,
/// contexts.
pub const SOURCES: [Source; 11] = [
    source("an argument of a built-in", 1, |pen, t| {
        pen.maker.built_in("and", &[t]);
    }),
    source("an argument of an application", 1, |pen, t| {
        pen.maker.apply(FUNCTION, &[t]);
    }),
    source("a guard", 1, |pen, t| {
        let [thn, els] = [pen.other(), pen.other()];
        pen.maker.if_then_else(t, thn, els);
    }),
    source("a then branch", 1, |pen, t| {
        let [guard, els] = [pen.other(), pen.other()];
        pen.maker.if_then_else(guard, t, els);
    }),
    source("an else branch", 1, |pen, t| {
        let [guard, thn] = [pen.other(), pen.other()];
        pen.maker.if_then_else(guard, thn, t);
    }),
    source("a right side", 1, |pen, t| {
        let body = pen.other();
        pen.maker.let_expr(CONSTANT, t, body);
    }),
    source("a let's body", 1, |pen, t| {
        let rhs = pen.other();
        pen.maker.let_expr(CONSTANT, rhs, t);
    }),
    source("a pattern's term", 1, |pen, t| {
        let body = pen.other();
        pen.quantifier(&[&[t]], body);
    }),
    source("a quantifier's body", 1, |pen, t| pen.quantifier(&[], t)),
    source("an axiom", 0, |pen, t| {
        pen.maker.axiom(Some(t), &[]);
    }),
    source("a context", 0, |pen, t| {
        pen.maker.context(ROOT, t);
    }),
];
/// The last two are no terms, and come one behind the other.
const TERM_SOURCES: usize = SOURCES.len() - 2;

/// A term that refers to two leaves.
#[derive(Clone, Copy)]
pub struct Parent {
    pub name: &'static str,
    refer: fn(&mut Pen, [u32; 2]),
}

const fn parent(name: &'static str, refer: fn(&mut Pen, [u32; 2])) -> Parent {
    Parent { name, refer }
}

pub const PARENTS: [Parent; 9] = [
    parent("two arguments of a built-in", |pen, both| {
        pen.maker.built_in("and", &both);
    }),
    parent("two arguments of an application", |pen, both| {
        pen.maker.apply(FUNCTION, &both);
    }),
    parent("guard and then branch", |pen, [t, u]| {
        let els = pen.other();
        pen.maker.if_then_else(t, u, els);
    }),
    parent("guard and else branch", |pen, [t, u]| {
        let thn = pen.other();
        pen.maker.if_then_else(t, thn, u);
    }),
    parent("then and else branch", |pen, [t, u]| {
        let guard = pen.other();
        pen.maker.if_then_else(guard, t, u);
    }),
    parent("right side and body", |pen, [t, u]| {
        pen.maker.let_expr(CONSTANT, t, u);
    }),
    parent("two terms of a pattern", |pen, both| {
        let body = pen.other();
        pen.quantifier(&[&both], body);
    }),
    parent("terms of two patterns", |pen, [t, u]| {
        let body = pen.other();
        pen.quantifier(&[&[t], &[u]], body);
    }),
    parent("a pattern's term and the body", |pen, [t, u]| {
        pen.quantifier(&[&[t]], u);
    }),
];

/// How a book refers to two leaves, or twice to one.
#[derive(Clone, Copy)]
pub enum Pair {
    Apart(Source, Source),
    Within(Parent),
}

/// Every pair, the first reference gone through before the second.
pub fn pairs() -> Vec<Pair> {
    let mut pairs: Vec<Pair> = PARENTS.into_iter().map(Pair::Within).collect();
    for (at, first) in SOURCES.into_iter().enumerate() {
        let from = if at < TERM_SOURCES { 0 } else { at };
        let second = SOURCES[from..].iter();
        pairs.extend(second.map(|second| Pair::Apart(first, *second)));
    }
    pairs
}

impl Pair {
    pub fn names(self) -> Vec<&'static str> {
        match self {
            Pair::Apart(first, second) => vec![first.name, second.name],
            Pair::Within(parent) => vec![parent.name],
        }
    }

    /// How many leaves a book has beside the terms that refer to them: as many
    /// as there can be terms in all.
    pub fn leaves(self) -> usize {
        let terms = match self {
            Pair::Apart(first, second) => first.terms + second.terms,
            Pair::Within(_) => 1,
        };
        TERMS - terms
    }

    /// The book that refers to these two leaves, or twice to one.
    pub fn book(self, [first, second]: [u32; 2]) -> Vec<u8> {
        let mut pen = Pen::new(self.leaves(), &[first, second]);
        match self {
            Pair::Apart(one, other) => {
                (one.refer)(&mut pen, first);
                (other.refer)(&mut pen, second);
            }
            Pair::Within(parent) => (parent.refer)(&mut pen, [first, second]),
        }
        pen.maker.book()
    }
}
