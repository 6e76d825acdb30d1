//! Random books for sessions, with few symbols, so that what is seldom in
//! other books is often in these: functions and axioms that explain each
//! other in cycles, constants that are free here and bound there, literals of
//! equal text by different splits, equal siblings, nodes as deep as they may be.

use leskofar_reference::book::{kind, Section, BOOL, INT};
use leskofar_reference::book_test::MOST_DEPTH;
use leskofar_reference::maker::Maker;
use leskofar_reference::random::{Random, AT_TIMES, OFTEN};
use leskofar_reference::sane_books::DEEP;

const TYPE_NAMES: [&str; 3] = ["c", "b:c", "b c"];
/// Texts of literals, with the name of a type: two names are equal.
const LITERALS: [(&str, &str); 5] = [
    ("a:b", "c"),
    ("a", "b:c"),
    ("", "b c"),
    ("%tag", "c"),
    ("%ta", "c"),
];
const OPERATORS: [&str; 3] = ["and", "", "%tag"];
const CONSTANTS: usize = 3;
const FUNCTIONS: usize = 4;
const AXIOMS: usize = 4;
/// The most inputs of a function, arguments, variables, patterns and terms of
/// a pattern.
const FEW: usize = 2;
/// How deep a term nests, and from how many terms on a book has only leaves,
/// which keeps it within its limits.
const NESTING: usize = 2;
const ENOUGH_TERMS: usize = Section::Terms.most() / 2;
/// Nodes of books that are no chains as deep as may be.
const NODES: [usize; 6] = [0, 1, 2, 3, 5, 8];
/// Terms made of the same seed are equal.
const SEEDS: usize = 3;

pub fn session_book(random: &mut Random) -> Maker {
    let nodes = if random.one_in(DEEP) {
        MOST_DEPTH
    } else {
        random.pick(&NODES)
    };
    let is_chain = nodes == MOST_DEPTH || random.one_in(OFTEN);
    book_of(random, nodes, is_chain)
}

/// With a chain of so many nodes.
pub fn chain_book(random: &mut Random, depth: usize) -> Maker {
    book_of(random, depth, true)
}

/// Nodes in a chain or a tree.
fn book_of(random: &mut Random, nodes: usize, is_chain: bool) -> Maker {
    let mut writer = Writer {
        random,
        maker: Maker::default(),
        types: vec![BOOL, INT],
        literals: Vec::new(),
        operators: Vec::new(),
    };
    writer.add_symbols();
    writer.add_axioms();
    writer.add_nodes(nodes, is_chain);
    writer.add_goal();
    writer.maker
}

struct Writer<'r> {
    random: &'r mut Random,
    maker: Maker,
    types: Vec<u32>,
    /// Name and type.
    literals: Vec<[u32; 2]>,
    /// Names.
    operators: Vec<u32>,
}

impl Writer<'_> {
    fn add_symbols(&mut self) {
        let user_types = TYPE_NAMES.map(|name| self.maker.user_type(name));
        self.types.extend(user_types);
        for (text, type_name) in LITERALS {
            let text = self.maker.name(text);
            for (name, typ) in TYPE_NAMES.iter().zip(user_types) {
                if *name == type_name {
                    self.literals.push([text, typ]);
                }
            }
        }
        self.operators = OPERATORS.map(|name| self.maker.name(name)).into();
        for name in ["x", "|y|", "x y"].into_iter().cycle().take(CONSTANTS) {
            let typ = self.typ();
            self.maker.constant(name, typ);
        }
        for name in ["f", "let", "|g h|", "x"]
            .into_iter()
            .cycle()
            .take(FUNCTIONS)
        {
            let inputs: Vec<u32> = (0..self.random.up_to(FEW)).map(|_| self.typ()).collect();
            let typ = self.typ();
            self.maker.function(name, &inputs, typ);
        }
    }

    /// Each function is explained by some of the axioms, which apply any
    /// functions. In some books axioms are missing.
    fn add_axioms(&mut self) {
        let lacking = self.random.one_in(AT_TIMES);
        let axioms = self.random.up_to(AXIOMS);
        for _ in 0..axioms {
            let is_missing = lacking && self.random.one_in(AT_TIMES);
            let term = (!is_missing).then(|| self.term(NESTING));
            let explained = self.few_below(FUNCTIONS);
            self.maker.axiom(term, &explained);
        }
        if axioms > 0 {
            for function in 0..FUNCTIONS as u32 {
                let axioms = self.few_below(axioms);
                self.maker.explained_by(function, &axioms);
            }
        }
    }

    /// Then a node more, so that the last one has a sibling at times.
    fn add_nodes(&mut self, nodes: usize, is_chain: bool) {
        for node in 0..nodes as u32 {
            let parent = if is_chain { node } else { self.below(node + 1) };
            self.add_node(parent);
        }
        let above_last = self.maker.contexts.last().map_or(0, |[parent, ..]| *parent);
        self.add_node(above_last);
    }

    fn add_node(&mut self, parent: u32) {
        let term = if self.random.one_in(OFTEN) {
            let seed = self.random.below(SEEDS) as u64;
            let rest = std::mem::replace(self.random, Random::new(seed));
            let term = self.term(NESTING);
            *self.random = rest;
            term
        } else {
            self.term(NESTING)
        };
        self.maker.context(parent, term);
    }

    /// The last term, with a constant that no other term has.
    fn add_goal(&mut self) {
        let typ = self.typ();
        let own = self.maker.constant("goal", typ);
        let args = [self.maker.id(own), self.term(NESTING)];
        self.maker.built_in("=", &args);
    }

    /// A term of any kind, or a leaf where it may not nest.
    fn term(&mut self, nesting: usize) -> u32 {
        let is_leaf = nesting == 0 || self.maker.terms.len() > ENOUGH_TERMS;
        let last = if is_leaf { kind::ID } else { kind::QUANTIFIER };
        let inner = nesting.saturating_sub(1);
        let kind = self.below(last + 1);
        match kind {
            kind::BOOLEAN => self.maker.boolean(true),
            kind::INTEGER => self.maker.integer(-1),
            kind::CUSTOM_LITERAL => {
                let literal = self.random.pick(&self.literals);
                self.maker.term(kind, literal)
            }
            kind::ID => {
                let v = self.below(CONSTANTS as u32);
                self.maker.id(v)
            }
            kind::BUILT_IN | kind::FUNCTION => {
                let op = if kind == kind::FUNCTION {
                    self.below(FUNCTIONS as u32)
                } else {
                    self.random.pick(&self.operators)
                };
                let args = self.few_terms(inner);
                let [start, count] = self.maker.list(&args);
                self.maker.term(kind, [op, start, count])
            }
            kind::IF_THEN_ELSE => {
                let fields = [(); 3].map(|()| self.term(inner));
                self.maker.term(kind, fields)
            }
            kind::LET => {
                let v = self.below(CONSTANTS as u32);
                let fields = [v, self.term(inner), self.term(inner)];
                self.maker.term(kind, fields)
            }
            _ => self.quantifier(inner),
        }
    }

    fn quantifier(&mut self, inner: usize) -> u32 {
        let vv = self.few_below(CONSTANTS);
        let mut patterns = Vec::new();
        if self.maker.patterns.len() + FEW <= Section::Patterns.most() {
            for _ in 0..self.random.up_to(FEW) {
                let terms = self.few_terms(inner);
                patterns.push(self.maker.pattern(&terms));
            }
        }
        let body = self.term(inner);
        let univ = self.random.one_in(OFTEN);
        self.maker.quantifier(univ, &vv, &patterns, body)
    }

    fn few_terms(&mut self, nesting: usize) -> Vec<u32> {
        let count = self.random.up_to(FEW);
        (0..count).map(|_| self.term(nesting)).collect()
    }

    fn few_below(&mut self, bound: usize) -> Vec<u32> {
        let count = self.random.up_to(FEW);
        (0..count).map(|_| self.below(bound as u32)).collect()
    }

    fn below(&mut self, bound: u32) -> u32 {
        self.random.below(bound as usize) as u32
    }

    fn typ(&mut self) -> u32 {
        self.random.pick(&self.types)
    }
}
