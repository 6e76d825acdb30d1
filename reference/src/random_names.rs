//! The names of random books: what they are cut from, which of them records
//! take, and records that are given a name that cannot go to a solver.

use crate::book::{kind, Section, BOOL, FIRST_USER_TYPE};
use crate::book_test::{FIRST_LETTER, LAST_LETTER};
use crate::maker::Maker;
use crate::name_faults::{may_be_declared, may_be_in_literal, text, type_text, TAG};
use crate::random::{Random, HARDLY_EVER, OFTEN};
use crate::random_books::Writer;

/// Letters that many names are made of, so that texts meet by chance, and few
/// enough of them are bars and backslashes.
const COMMON_LETTERS: &[u8] = b"ab:ab: |\\";
/// Letters of a book, if it has so many: names cut from them make literals of
/// equal text by different splits, `%tag`, names that get bars, names that have
/// them, and names that have too many.
const FIRST_LETTERS: &[u8] = b"a:b:c%tag|a b||let|\\|";
const FIRST_NAMES: [[u32; 2]; 11] = [
    [0, 3],
    [4, 1],
    [0, 1],
    [2, 3],
    [5, 4],
    [9, 5],
    [10, 3],
    [13, 2],
    [15, 3],
    [9, 6],
    [18, 3],
];
/// The usual length of a name.
const NAME_LENGTH: usize = 6;
/// The most records that are given a bad name.
const BAD_NAMES: usize = 3;

/// The names that a book's records may take without making it 28.
#[derive(Default)]
pub(crate) struct Pools {
    /// For types, constants and functions.
    pub declared: Vec<u32>,
    /// For the texts of literals.
    pub texts: Vec<u32>,
    /// The types of literals.
    pub types: Vec<u32>,
}

impl Writer<'_> {
    pub(crate) fn add_names(&mut self) {
        let letters = self.counts.of(Section::Letters);
        self.maker.letters = (0..letters).map(|_| self.letter()).collect();
        let has_first = letters >= FIRST_LETTERS.len();
        if has_first {
            self.maker.letters[..FIRST_LETTERS.len()].copy_from_slice(FIRST_LETTERS);
        }
        for _ in 0..self.counts.of(Section::Names) {
            let name = if has_first && self.random.one_in(OFTEN) {
                self.random.pick(&FIRST_NAMES)
            } else {
                let start = self.random.up_to(letters);
                let usual = NAME_LENGTH.min(letters - start);
                let most = if self.random.one_in(HARDLY_EVER) {
                    letters - start
                } else {
                    usual
                };
                [start as u32, self.random.up_to(most) as u32]
            };
            self.maker.names.push(name);
        }
        self.pools.declared = names_that(&self.maker, may_be_declared);
        self.pools.texts = names_that(&self.maker, may_be_in_literal);
    }

    fn letter(&mut self) -> u8 {
        if self.random.one_in(OFTEN) {
            self.random.pick(COMMON_LETTERS)
        } else {
            FIRST_LETTER + self.random.up_to(usize::from(LAST_LETTER - FIRST_LETTER)) as u8
        }
    }

    /// A name for a type, constant or function; there is one.
    pub(crate) fn declared_name(&mut self) -> u32 {
        self.random.pick(&self.pools.declared)
    }

    pub(crate) fn add_types(&mut self) {
        if !self.pools.declared.is_empty() {
            for _ in 0..self.counts.of(Section::Types) {
                let name = self.declared_name();
                self.maker.types.push([name]);
            }
        }
        self.pools.types = types_that(&self.maker, may_be_in_literal);
    }

    /// The name and the type of a literal; there is such a name. `%tag` may have
    /// any type.
    pub(crate) fn literal(&mut self) -> [u32; 2] {
        let name = self.random.pick(&self.pools.texts);
        let typ = if text(&self.maker, name) == TAG {
            self.typ()
        } else {
            self.random.pick(&self.pools.types)
        };
        [name, typ]
    }
}

/// Gives some records bad names of the book, so far as it has records and bad
/// names.
pub(crate) fn spoil_names(random: &mut Random, m: &mut Maker) {
    let bad = names_that(m, |name| !may_be_declared(name));
    let in_no_literal = names_that(m, |name| !may_be_in_literal(name));
    for _ in 0..=random.below(BAD_NAMES) {
        let literals: Vec<usize> = (0..m.terms.len())
            .filter(|term| m.terms[*term][0] == kind::CUSTOM_LITERAL)
            .collect();
        let types = types_that(m, |name| !may_be_in_literal(name));
        match random.pick(&SPOILT) {
            Spoilt::Type => spoil(random, &mut m.types, 0, &bad),
            Spoilt::Constant => spoil(random, &mut m.constants, 0, &bad),
            Spoilt::Function => spoil(random, &mut m.functions, 0, &bad),
            Spoilt::Text => spoil_literal(random, m, &literals, 1, &in_no_literal),
            Spoilt::TypeOfLiteral => spoil_literal(random, m, &literals, 2, &types),
        }
    }
}

/// What is given a bad name.
#[derive(Clone, Copy)]
enum Spoilt {
    Type,
    Constant,
    Function,
    Text,
    TypeOfLiteral,
}

const SPOILT: [Spoilt; 5] = [
    Spoilt::Type,
    Spoilt::Constant,
    Spoilt::Function,
    Spoilt::Text,
    Spoilt::TypeOfLiteral,
];

/// Puts one of some numbers into a field of some record.
fn spoil<const N: usize>(
    random: &mut Random,
    records: &mut [[u32; N]],
    field: usize,
    numbers: &[u32],
) {
    if !records.is_empty() && !numbers.is_empty() {
        let record = random.below(records.len());
        records[record][field] = random.pick(numbers);
    }
}

fn spoil_literal(
    random: &mut Random,
    m: &mut Maker,
    literals: &[usize],
    field: usize,
    numbers: &[u32],
) {
    if !literals.is_empty() {
        let literal = random.pick(literals);
        spoil(random, &mut m.terms[literal..=literal], field, numbers);
    }
}

fn names_that(m: &Maker, is_fit: impl Fn(&str) -> bool) -> Vec<u32> {
    let names = 0..m.names.len() as u32;
    names.filter(|name| is_fit(&text(m, *name))).collect()
}

/// The names of the two that are built in have no bars, as no name has none.
fn types_that(m: &Maker, is_fit: impl Fn(&str) -> bool) -> Vec<u32> {
    let types = BOOL..FIRST_USER_TYPE + m.types.len() as u32;
    let name = |typ: u32| type_text(m, typ).unwrap_or_default();
    types.filter(|typ| is_fit(&name(*typ))).collect()
}
