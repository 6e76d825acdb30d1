//! The terms of random books: every kind, each term referred to at most once.

use crate::book::{kind, Section};
use crate::random::{AT_TIMES, OFTEN, RARELY};
use crate::random_books::{Usage, Writer, LIST_LENGTH};

const LONG_LIST_LENGTH: usize = 12;
/// List entries that a quantifier with patterns may need.
const QUANTIFIER_LISTS: usize = 16;
/// Children of an if-then-else and of a let.
const BRANCHES: usize = 3;
const LET_TERMS: usize = 2;
/// The most patterns of a quantifier, and terms of a pattern.
const PATTERNS: usize = 2;
const PATTERN_TERMS: usize = 2;
const NUMBERS: [i64; 6] = [0, 1, -1, i64::MAX, i64::MIN, 1 << 32];

impl Writer<'_> {
    /// Terms, each taking its children from the roots; enough roots stay over
    /// for axioms and contexts.
    pub(crate) fn add_terms(&mut self) {
        let terms = self.counts.of(Section::Terms);
        let wanted = self.counts.of(Section::Axioms) + self.counts.of(Section::Contexts);
        for made in 0..terms {
            let to_come = terms - made;
            self.spare = (self.roots.len() + to_come).saturating_sub(wanted);
            self.spare = self.spare.min(self.roots.len());
            while self.maker.terms.len() == made {
                self.try_term();
            }
            self.roots.push(made as u32);
        }
    }

    /// Adds a term of a random kind, or none if the kind needs what the book
    /// doesn't have.
    fn try_term(&mut self) {
        let has_names = !self.maker.names.is_empty();
        let has_constants = !self.maker.constants.is_empty();
        let kind = self.random.up_to(kind::QUANTIFIER as usize) as u32;
        match kind {
            kind::BOOLEAN => {
                let b = self.random.one_in(OFTEN);
                self.maker.boolean(b);
            }
            kind::INTEGER => {
                let any = self.random.number() as i64;
                let x = self.random.pick(&NUMBERS);
                let x = if self.random.one_in(AT_TIMES) { any } else { x };
                self.maker.integer(x);
            }
            kind::CUSTOM_LITERAL if !self.pools.texts.is_empty() => {
                let fields = self.literal();
                self.maker.term(kind, fields);
            }
            kind::ID if has_constants => {
                let constant = self.number_of(Section::Constants);
                self.maker.id(constant);
            }
            kind::BUILT_IN if has_names => {
                let name = self.number_of(Section::Names);
                let [start, count] = self.arguments();
                self.maker.term(kind, [name, start, count]);
            }
            kind::FUNCTION if !self.maker.functions.is_empty() => {
                let function = self.number_of(Section::Functions);
                let [start, count] = self.arguments();
                self.maker.term(kind, [function, start, count]);
            }
            kind::IF_THEN_ELSE if self.spare >= BRANCHES => {
                let fields = [self.child(), self.child(), self.child()];
                self.maker.term(kind, fields);
            }
            kind::LET if has_constants && self.spare >= LET_TERMS => {
                let v = self.number_of(Section::Constants);
                let fields = [v, self.child(), self.child()];
                self.maker.term(kind, fields);
            }
            kind::QUANTIFIER if self.spare >= 1 => self.add_quantifier(),
            _ => {}
        }
    }

    fn add_quantifier(&mut self) {
        let body = self.child();
        let univ = u32::from(self.random.one_in(OFTEN));
        let [vv, vv_count] = self.numbers(Usage::Constants);
        let mut listed = Vec::new();
        if self.has_room(QUANTIFIER_LISTS) {
            for _ in 0..self.random.up_to(PATTERNS) {
                listed.extend(self.pattern_to_list());
            }
        }
        let [patterns, pattern_count] = self.new_list(&listed);
        let fields = [univ, vv, vv_count, patterns, pattern_count, body];
        self.maker.term(kind::QUANTIFIER, fields);
    }

    /// An empty pattern once more, or a new pattern; none if all are used.
    fn pattern_to_list(&mut self) -> Option<u32> {
        let patterns = &self.maker.patterns;
        let empty = patterns.iter().position(|[_, count]| *count == 0);
        if empty.is_some() && self.random.one_in(OFTEN) {
            return empty.map(|pattern| pattern as u32);
        }
        if patterns.len() == self.counts.of(Section::Patterns) {
            return None;
        }
        let count = self.random.up_to(self.spare.min(PATTERN_TERMS));
        let terms: Vec<u32> = (0..count).map(|_| self.child()).collect();
        Some(self.maker.pattern(&terms))
    }

    fn child(&mut self) -> u32 {
        self.spare -= 1;
        if self.nested {
            self.roots.pop().expect("spare counts roots")
        } else {
            self.root()
        }
    }

    fn arguments(&mut self) -> [u32; 2] {
        let long = self.random.one_in(RARELY);
        let most = if long { LONG_LIST_LENGTH } else { LIST_LENGTH };
        let count = self.random.up_to(most.min(self.spare));
        if !self.has_room(count + 1) {
            return self.empty_range();
        }
        let terms: Vec<u32> = (0..count).map(|_| self.child()).collect();
        let range = self.new_list(&terms);
        self.earlier[Usage::Terms as usize].push(range);
        range
    }
}
