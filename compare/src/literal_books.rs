//! Random books of many literals from few letters, so that whole names agree
//! often, by the same split and by others, or differ in one letter.

use crate::made_literals::Literal;
use leskofar_reference::book::{kind, Section, BOOL, INT};
use leskofar_reference::maker::Maker;
use leskofar_reference::random::{Random, AT_TIMES, OFTEN, RARELY};

const LETTERS: &[u8] = b"ab:";
const COLON: u8 = b':';
const TAG: &[u8] = b"%tag";
/// The most letters of a text, and of a type's name.
const LONGEST: usize = 20;
/// Texts that are split at each colon, and texts and types by themselves.
const WHOLES: usize = 8;
const PAIRS: usize = 12;
const LEAVES: [usize; 4] = [10, 100, 300, 600];
const NODES: usize = 8;
/// Terms that are kept free of leaves, for applications.
const FREE_TERMS: usize = 2 * NODES;

pub fn literal_book(random: &mut Random) -> Maker {
    let mut writer = Writer {
        random,
        maker: Maker::default(),
        types: Vec::new(),
        literals: Vec::new(),
        operator: 0,
    };
    writer.operator = writer.maker.name("and");
    writer.add_literals();
    writer.add_nodes();
    writer.maker
}

struct Writer<'r> {
    random: &'r mut Random,
    maker: Maker,
    /// Names and numbers.
    types: Vec<(Vec<u8>, u32)>,
    literals: Vec<Literal>,
    operator: u32,
}

impl Writer<'_> {
    fn add_literals(&mut self) {
        let mut wholes: Vec<Vec<u8>> = Vec::new();
        for _ in 0..self.random.up_to(WHOLES) {
            let nearly = self.random.one_in(OFTEN) && !wholes.is_empty();
            let whole = if nearly {
                let at = self.random.below(wholes.len());
                self.changed(&wholes[at])
            } else {
                let [before, behind] = [self.text(), self.text()];
                [&before[..], &[COLON], &behind].concat()
            };
            wholes.push(whole);
        }
        for whole in wholes {
            self.add_splits(&whole);
        }
        for _ in 0..=self.random.up_to(PAIRS) {
            let [text, type_name] = [self.text(), self.text()];
            self.add_literal(&text, &type_name);
        }
        let tag_type = self.text();
        self.add_literal(TAG, &tag_type);
    }

    /// A text with another letter at one place.
    fn changed(&mut self, text: &[u8]) -> Vec<u8> {
        let mut changed = text.to_vec();
        let place = self.random.below(text.len());
        changed[place] = self.random.pick(LETTERS);
        changed
    }

    /// The literals of every split of a text into parts that are not too long.
    fn add_splits(&mut self, whole: &[u8]) {
        for (at, _) in whole.iter().enumerate().filter(|(_, l)| **l == COLON) {
            let [text, type_name] = [&whole[..at], &whole[at + 1..]];
            if text.len().max(type_name.len()) <= LONGEST {
                self.add_literal(text, type_name);
            }
        }
    }

    /// A literal, at times twice: the second has its own letters.
    fn add_literal(&mut self, text: &[u8], type_name: &[u8]) {
        let typ = self.type_called(type_name);
        for _ in 0..=usize::from(self.random.one_in(AT_TIMES)) {
            let name = self.name(text);
            self.literals.push([name, typ]);
        }
    }

    /// A type of a name, at times a new one though there is one; if there can
    /// be no more, or the name has no letters, one that is built in.
    fn type_called(&mut self, name: &[u8]) -> u32 {
        if name.is_empty() || self.random.one_in(RARELY) {
            return self.random.pick(&[BOOL, INT]);
        }
        let known = self.types.iter().find(|(known, _)| known == name);
        match known {
            Some((_, typ)) if !self.random.one_in(RARELY) => *typ,
            _ if self.types.len() < Section::Types.most() => {
                let text = String::from_utf8_lossy(name);
                let typ = self.maker.user_type(&text);
                self.types.push((name.to_vec(), typ));
                typ
            }
            _ => INT,
        }
    }

    fn name(&mut self, text: &[u8]) -> u32 {
        let text = String::from_utf8_lossy(text);
        self.maker.name(&text)
    }

    /// Short ones come more often, so that they meet.
    fn text(&mut self) -> Vec<u8> {
        let most = self.random.up_to(LONGEST);
        let length = self.random.up_to(most);
        (0..length).map(|_| self.random.pick(LETTERS)).collect()
    }

    /// Nodes that share the leaves out, some of them leaves themselves, and a
    /// goal with the rest. At times the last node has the last term.
    fn add_nodes(&mut self) {
        let count = self
            .random
            .pick(&LEAVES)
            .min(Section::Terms.most() - FREE_TERMS);
        let nodes = 1 + self.random.below(NODES);
        let has_goal_first = self.random.one_in(OFTEN);
        if has_goal_first {
            self.some_leaves(count / (nodes + 1));
        }
        for node in 0..nodes {
            let premise = self.some_leaves(count / (nodes + 1));
            let parent = self.random.up_to(node) as u32;
            self.maker.context(parent, premise);
        }
        if !has_goal_first {
            self.some_leaves(count / (nodes + 1));
        }
    }

    /// A leaf, or a term with so many, from the lowest or the highest on.
    fn some_leaves(&mut self, count: usize) -> u32 {
        if self.random.one_in(RARELY) {
            return self.leaf();
        }
        let mut args: Vec<u32> = (0..count).map(|_| self.leaf()).collect();
        if self.random.one_in(OFTEN) {
            args.reverse();
        }
        let [start, count] = self.maker.list(&args);
        self.maker
            .term(kind::BUILT_IN, [self.operator, start, count])
    }

    /// A literal, or at times an integer with the same fields.
    fn leaf(&mut self) -> u32 {
        let literal = self.random.pick(&self.literals);
        let is_integer = self.random.one_in(RARELY);
        let kind = if is_integer {
            kind::INTEGER
        } else {
            kind::CUSTOM_LITERAL
        };
        self.maker.term(kind, literal)
    }
}
