//! Random growths of a book: arguments inside its ranges and just outside.

use crate::nodes_call::bytes;
use crate::writer_call::{Growth, Trace};
use leskofar_reference::book::{kind, Section, FIRST_USER_TYPE, NO_TERM, TERM_FIELDS};
use leskofar_reference::book_test::{FIRST_LETTER, LAST_LETTER, MOST_DEPTH};
use leskofar_reference::maker::Maker;
use leskofar_reference::random::{Random, AT_TIMES, HARDLY_EVER, OFTEN, RARELY};

/// Texts that the four calls look for themselves, and borders of letters.
const TEXTS: [&[u8]; 10] = [
    b"=",
    b"probe%0",
    b"probe%1",
    b"probe%399",
    b"probe%400",
    b"",
    b"a:b",
    &[FIRST_LETTER],
    &[LAST_LETTER],
    b"start",
];
const BAD_LETTERS: [u8; 5] = [0, FIRST_LETTER - 1, LAST_LETTER + 1, 0x80, 0xFF];
/// The most letters of a usual text.
const SHORT: usize = 6;
/// Texts that nearly fill the letters of a book, or more than that.
const LONG: [usize; 4] = [
    Section::Letters.most() - 64,
    Section::Letters.most() - 1,
    Section::Letters.most(),
    Section::Letters.most() + 1,
];
/// Flags that are set.
const SET: [u32; 4] = [1, 2, 1 << 31, u32::MAX];
/// The usual most entries of a list, and a count that no book has room for.
const FEW: usize = 2;
const TOO_MANY: usize = Section::Lists.most() + 1;
const CALLS: usize = 8;
const LAST_KIND: u32 = kind::QUANTIFIER;

/// A book's counts, and what can be taken from it.
pub struct Stock<'m> {
    m: &'m Maker,
    /// Terms that nothing refers to.
    free: Vec<u32>,
    /// The deepest nodes that may be, if there are any.
    deepest: Vec<u32>,
}

impl Stock<'_> {
    /// Of a good book.
    pub fn of(m: &Maker) -> Stock<'_> {
        let mut is_free = vec![true; m.terms.len()];
        for term in referred(m) {
            is_free[term as usize] = false;
        }
        let free = (0..m.terms.len() as u32).filter(|term| is_free[*term as usize]);
        let mut depths = vec![0];
        for [parent, ..] in &m.contexts {
            depths.push(depths[*parent as usize] + 1);
        }
        let nodes = 0..depths.len() as u32;
        let deepest = nodes.filter(|node| depths[*node as usize] == MOST_DEPTH);
        Stock {
            m,
            free: free.collect(),
            deepest: deepest.collect(),
        }
    }

    pub fn growth(&self, random: &mut Random) -> Growth {
        let m = self.m;
        match random.below(CALLS) {
            0 => Growth::Name(self.text(random)),
            1 => Growth::Constant(number(random, m.names.len()), self.typ(random)),
            2 => self.new_term(random),
            3 => {
                let trace = number(random, m.names.len() + 1);
                Growth::Node(self.parent(random), self.term(random), trace)
            }
            4 => Growth::Extend(self.parent(random), self.term(random), self.trace(random)),
            5 => {
                let constant = number(random, m.constants.len());
                Growth::Equality(self.parent(random), constant, self.term(random))
            }
            6 => {
                let numbers = [self.parent(random), self.term(random), self.typ(random)];
                Growth::Record(numbers, self.trace(random))
            }
            _ => Growth::TracePoint(self.parent(random), self.text(random)),
        }
    }

    fn trace(&self, random: &mut Random) -> Trace {
        let flag = if random.one_in(AT_TIMES) {
            0
        } else {
            random.pick(&SET)
        };
        let text = self.text(random);
        Trace { flag, text }
    }

    fn typ(&self, random: &mut Random) -> u32 {
        number(random, FIRST_USER_TYPE as usize + self.m.types.len())
    }

    /// A node, at times one that nothing may hang below.
    fn parent(&self, random: &mut Random) -> u32 {
        if !self.deepest.is_empty() && random.one_in(AT_TIMES) {
            random.pick(&self.deepest)
        } else {
            number(random, self.m.contexts.len() + 1)
        }
    }

    /// A term, mostly one that nothing refers to.
    fn term(&self, random: &mut Random) -> u32 {
        if self.free.is_empty() || random.one_in(AT_TIMES) {
            number(random, self.m.terms.len())
        } else {
            random.pick(&self.free)
        }
    }

    /// A text that a name has, or one of those above, or a new one.
    fn text(&self, random: &mut Random) -> Vec<u8> {
        let mut text = if random.one_in(HARDLY_EVER) {
            vec![b'a'; random.pick(&LONG)]
        } else if random.one_in(OFTEN) {
            random.pick(&TEXTS).to_vec()
        } else if !self.m.names.is_empty() && random.one_in(OFTEN) {
            let [start, length] = random.pick(&self.m.names).map(|number| number as usize);
            self.m.letters[start..start + length].to_vec()
        } else {
            let letters = usize::from(LAST_LETTER - FIRST_LETTER);
            let length = random.up_to(SHORT);
            let letter = |_| FIRST_LETTER + random.up_to(letters) as u8;
            (0..length).map(letter).collect()
        };
        if random.one_in(RARELY) {
            text.push(random.pick(&BAD_LETTERS));
        }
        text
    }

    /// A term of any kind, rarely of none, and rarely handed over wrongly.
    fn new_term(&self, random: &mut Random) -> Growth {
        let kind = if random.one_in(HARDLY_EVER) {
            random.pick(&[LAST_KIND + 1, 1 << 31, u32::MAX])
        } else {
            random.up_to(LAST_KIND as usize) as u32
        };
        let mut record = self.fields(random, kind);
        let [terms, constants] = [self.m.terms.len(), self.m.constants.len()];
        let mut lists = match kind {
            kind::BUILT_IN | kind::FUNCTION => [self.terms(random), vec![]],
            kind::QUANTIFIER => [list(random, constants), list(random, self.m.patterns.len())],
            _ => [vec![], vec![]],
        };
        if random.one_in(RARELY) {
            let field = 1 + random.below(TERM_FIELDS - 1);
            record[field] = random.pick(&[1, terms as u32, u32::MAX]);
        }
        if random.one_in(RARELY) {
            let at = random.below(lists.len());
            lists[at] = list(random, terms);
        }
        if random.one_in(2 * RARELY) {
            let at = random.below(lists.len());
            let cut = 1 + random.below(3);
            let longer = lists[at].len() + cut;
            lists[at].resize(longer, 0);
        }
        if random.one_in(HARDLY_EVER) {
            let at = random.below(lists.len());
            lists[at] = bytes(&vec![0; TOO_MANY - random.up_to(FEW)]);
        }
        Growth::Term(record, lists)
    }

    /// The fields of a term but for its ranges.
    fn fields(&self, random: &mut Random, kind: u32) -> [u32; TERM_FIELDS] {
        let m = self.m;
        let [a, b, c, f] = match kind {
            kind::BOOLEAN => [number(random, 2), 0, 0, 0],
            kind::INTEGER => [random.number() as u32, random.number() as u32, 0, 0],
            kind::CUSTOM_LITERAL => [number(random, m.names.len()), self.typ(random), 0, 0],
            kind::ID => [number(random, m.constants.len()), 0, 0, 0],
            kind::BUILT_IN => [number(random, m.names.len()), 0, 0, 0],
            kind::FUNCTION => [number(random, m.functions.len()), 0, 0, 0],
            kind::IF_THEN_ELSE => {
                let [a, b, c] = [(); 3].map(|()| self.term(random));
                [a, b, c, 0]
            }
            kind::LET => {
                let [rhs, body] = [(); 2].map(|()| self.term(random));
                [number(random, m.constants.len()), rhs, body, 0]
            }
            kind::QUANTIFIER => [number(random, 2), 0, 0, self.term(random)],
            _ => [0; 4],
        };
        [kind, a, b, c, 0, 0, f]
    }

    fn terms(&self, random: &mut Random) -> Vec<u8> {
        let many = random.up_to(FEW);
        let terms: Vec<u32> = (0..many).map(|_| self.term(random)).collect();
        bytes(&terms)
    }
}

/// The terms that something refers to.
fn referred(m: &Maker) -> Vec<u32> {
    let entries = |start: u32, count: u32| &m.lists[start as usize..(start + count) as usize];
    let axioms = m.axioms.iter().map(|[term, ..]| *term);
    let contexts = m.contexts.iter().map(|[_, term, _]| *term);
    let mut terms: Vec<u32> = axioms
        .filter(|term| *term != NO_TERM)
        .chain(contexts)
        .collect();
    for [kind, a, b, c, d, e, f] in m.terms.iter().copied() {
        match kind {
            kind::BUILT_IN | kind::FUNCTION => terms.extend(entries(b, c)),
            kind::IF_THEN_ELSE => terms.extend([a, b, c]),
            kind::LET => terms.extend([b, c]),
            kind::QUANTIFIER => {
                terms.push(f);
                for pattern in entries(d, e) {
                    let [start, count] = m.patterns[*pattern as usize];
                    terms.extend(entries(start, count));
                }
            }
            _ => {}
        }
    }
    terms
}

/// A number below a bound, or one that is hardly not.
fn number(random: &mut Random, bound: usize) -> u32 {
    if bound == 0 || random.one_in(RARELY) {
        random.pick(&[bound as u32, bound as u32 + 1, 1 << 31, u32::MAX])
    } else {
        random.below(bound) as u32
    }
}

fn list(random: &mut Random, bound: usize) -> Vec<u8> {
    let many = if bound == 0 { 0 } else { random.up_to(FEW) };
    let numbers: Vec<u32> = (0..many).map(|_| number(random, bound)).collect();
    bytes(&numbers)
}
