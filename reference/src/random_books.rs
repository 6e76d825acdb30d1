//! Random books that pass the book test, from tiny ones to every section at
//! its limit.

use crate::book::{Section, FIRST_USER_TYPE, NO_TERM};
use crate::book_test::MOST_DEPTH;
use crate::maker::Maker;
use crate::random::{Random, AT_TIMES, HARDLY_EVER, OFTEN, RARELY};
use crate::random_names::{spoil_names, Pools};

/// How many records each section is to have.
#[derive(Clone, Copy, Debug)]
pub struct Counts([usize; Section::ALL.len()]);

impl Counts {
    /// How much larger a section is than the others in a book of one size.
    const WEIGHTS: [usize; Section::ALL.len()] = [4, 2, 1, 1, 1, 1, 1, 6, 2, 12];

    pub fn limits() -> Counts {
        Counts::short_of_limits(0)
    }

    /// So many records less than each section may have.
    pub fn short_of_limits(by: usize) -> Counts {
        Counts(Section::ALL.map(|section| section.most() - by))
    }

    /// Each section up to its weight times `size`, within its limit.
    pub fn random(random: &mut Random, size: usize) -> Counts {
        Counts(Section::ALL.map(|section| {
            let most = size * Counts::WEIGHTS[section as usize];
            random.up_to(most.min(section.most()))
        }))
    }

    pub fn of(&self, section: Section) -> usize {
        self.0[section as usize]
    }
}

/// A random book, most of which pass; the others are 28.
pub fn any_random_book(random: &mut Random, counts: Counts) -> Maker {
    let mut maker = random_book(random, counts);
    if random.one_in(AT_TIMES) {
        spoil_names(random, &mut maker);
    }
    maker
}

/// A random book with the wanted counts, which passes. Without names that may be
/// declared there are no types, constants and functions; contexts are as many as
/// there are terms for.
pub fn random_book(random: &mut Random, counts: Counts) -> Maker {
    let mut writer = Writer {
        missing_axioms: random.one_in(AT_TIMES),
        nested: random.one_in(AT_TIMES),
        hanging: random.pick(&HANGING),
        random,
        counts,
        maker: Maker::default(),
        roots: Vec::new(),
        spare: 0,
        earlier: Default::default(),
        pools: Pools::default(),
    };
    writer.add_names();
    writer.add_types();
    if !writer.pools.declared.is_empty() {
        writer.add_symbols();
    }
    writer.add_axioms();
    writer.add_terms();
    writer.add_unlisted_patterns();
    writer.place_roots();
    writer.fill_lists();
    writer.maker
}

/// What a range's entries are numbers of.
#[derive(Clone, Copy)]
pub(crate) enum Usage {
    Types,
    Constants,
    Functions,
    Axioms,
    Terms,
}

const USAGES: usize = 5;
/// Which nodes most contexts hang below, so that books are wide, have some long
/// chains, or one that is as deep as it can be.
#[derive(Clone, Copy)]
enum Hanging {
    Any,
    Newest,
    Deepest,
}

const HANGING: [Hanging; 4] = [
    Hanging::Any,
    Hanging::Any,
    Hanging::Newest,
    Hanging::Deepest,
];
/// The usual length of a list or argument row.
pub(crate) const LIST_LENGTH: usize = 3;

pub(crate) struct Writer<'r> {
    pub(crate) random: &'r mut Random,
    pub(crate) counts: Counts,
    pub(crate) maker: Maker,
    missing_axioms: bool,
    /// Terms take the newest roots, so that they nest deep.
    pub(crate) nested: bool,
    hanging: Hanging,
    /// Terms that nothing refers to yet.
    pub(crate) roots: Vec<u32>,
    /// How many of them the next term may take.
    pub(crate) spare: usize,
    /// Earlier ranges of each usage, to overlap with.
    pub(crate) earlier: [Vec<[u32; 2]>; USAGES],
    pub(crate) pools: Pools,
}

impl Writer<'_> {
    fn add_symbols(&mut self) {
        for _ in 0..self.counts.of(Section::Constants) {
            let constant = [self.declared_name(), self.typ()];
            self.maker.constants.push(constant);
        }
        for _ in 0..self.counts.of(Section::Functions) {
            let (name, typ) = (self.declared_name(), self.typ());
            let [inputs, input_count] = self.numbers(Usage::Types);
            let [axioms, axiom_count] = self.numbers(Usage::Axioms);
            let function = [name, typ, inputs, input_count, axioms, axiom_count];
            self.maker.functions.push(function);
        }
    }

    /// Axioms, their terms to be placed later. Half of them explain only
    /// functions that list them, so that many are sent.
    fn add_axioms(&mut self) {
        for axiom in 0..self.counts.of(Section::Axioms) as u32 {
            let listing: Vec<u32> = (0..self.maker.functions.len() as u32)
                .filter(|function| self.lists_axiom(*function, axiom))
                .collect();
            let [start, count] = if listing.is_empty() || self.random.one_in(OFTEN) {
                self.numbers(Usage::Functions)
            } else {
                let explains = [self.random.pick(&listing), self.random.pick(&listing)];
                self.new_list(&explains)
            };
            self.maker.axioms.push([NO_TERM, start, count]);
        }
    }

    fn lists_axiom(&self, function: u32, axiom: u32) -> bool {
        let [.., start, count] = self.maker.functions[function as usize];
        let range = start as usize..(start + count) as usize;
        self.maker.lists[range].contains(&axiom)
    }

    /// Patterns that no quantifier lists may hold any terms.
    fn add_unlisted_patterns(&mut self) {
        while self.maker.patterns.len() < self.counts.of(Section::Patterns) {
            let range = self.numbers(Usage::Terms);
            self.maker.patterns.push(range);
        }
    }

    /// Gives the roots to axioms and contexts; the others are goals only.
    fn place_roots(&mut self) {
        let axioms = self.maker.axioms.len();
        let contexts = self.counts.of(Section::Contexts);
        // Where there are too few, both get some.
        let kept = contexts.min(self.roots.len() / 2);
        let for_axioms = axioms.min(self.roots.len() - kept);
        for axiom in 0..for_axioms {
            if !(self.missing_axioms && self.random.one_in(AT_TIMES)) {
                self.maker.axioms[axiom][0] = self.root();
            }
        }
        let mut depths = vec![0];
        for node in 1..=contexts.min(self.roots.len()) {
            let above: Vec<usize> = (0..node).filter(|n| depths[*n] < MOST_DEPTH).collect();
            let any = self.random.pick(&above);
            let parent = match self.hanging {
                _ if self.random.one_in(HARDLY_EVER) => any,
                Hanging::Any => any,
                Hanging::Newest => above[above.len() - 1],
                Hanging::Deepest => *above.iter().max_by_key(|n| depths[**n]).unwrap_or(&any),
            };
            depths.push(depths[parent] + 1);
            let trace = self.random.up_to(self.maker.names.len()) as u32;
            let trace = if self.random.one_in(OFTEN) { trace } else { 0 };
            let root = self.root();
            self.maker.contexts.push([parent as u32, root, trace]);
        }
    }

    /// Entries that no range reaches may hold anything.
    fn fill_lists(&mut self) {
        while self.has_room(1) {
            self.maker.lists.push(self.random.number() as u32);
        }
    }

    pub(crate) fn number_of(&mut self, section: Section) -> u32 {
        self.random.below(self.counts.of(section)) as u32
    }

    pub(crate) fn typ(&mut self) -> u32 {
        self.random
            .below(FIRST_USER_TYPE as usize + self.maker.types.len()) as u32
    }

    /// Takes a term that nothing refers to.
    pub(crate) fn root(&mut self) -> u32 {
        let at = self.random.below(self.roots.len());
        self.roots.swap_remove(at)
    }

    /// A range for a usage: part of an earlier one, or new entries.
    pub(crate) fn numbers(&mut self, usage: Usage) -> [u32; 2] {
        let bound = match usage {
            Usage::Types => FIRST_USER_TYPE as usize + self.maker.types.len(),
            Usage::Constants => self.maker.constants.len(),
            Usage::Functions => self.maker.functions.len(),
            Usage::Axioms => self.counts.of(Section::Axioms),
            Usage::Terms => self.maker.terms.len(),
        };
        let earlier = &self.earlier[usage as usize];
        if !earlier.is_empty() && self.random.one_in(AT_TIMES) {
            let [start, count] = self.random.pick(earlier);
            let skipped = self.random.up_to(count as usize) as u32;
            let taken = self.random.up_to((count - skipped) as usize) as u32;
            return [start + skipped, taken];
        }
        let count = if bound == 0 {
            0
        } else {
            self.random.up_to(LIST_LENGTH)
        };
        let entries: Vec<u32> = (0..count)
            .map(|_| self.random.below(bound) as u32)
            .collect();
        let range = self.new_list(&entries);
        self.earlier[usage as usize].push(range);
        range
    }

    /// The entries' range, at times behind an entry that no range covers; an
    /// empty range if there is no room.
    pub(crate) fn new_list(&mut self, entries: &[u32]) -> [u32; 2] {
        if entries.is_empty() || !self.has_room(entries.len() + 1) {
            return self.empty_range();
        }
        if self.random.one_in(RARELY) {
            self.maker.lists.push(self.random.number() as u32);
        }
        self.maker.list(entries)
    }

    pub(crate) fn empty_range(&mut self) -> [u32; 2] {
        [self.random.up_to(self.maker.lists.len()) as u32, 0]
    }

    pub(crate) fn has_room(&self, entries: usize) -> bool {
        self.maker.lists.len() + entries <= self.counts.of(Section::Lists)
    }
}
