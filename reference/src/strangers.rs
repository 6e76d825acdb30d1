//! Strangers: symbols of a live assertion that the solver has not
//! been told of just once, earlier, and as what they are. What is live is read
//! from the text alone, and what an assertion has in it from the book alone.

use crate::asserted::{last_of_levels, Said};
use crate::live_lines::{Command, Line, LiveLines};
use crate::program::Program;
use crate::term_symbols::{Symbol, TermSymbols};
use std::collections::BTreeSet;

/// The sorts that no line may declare.
const BUILT_IN_SORTS: [&[u8]; 2] = [b"Bool", b"Int"];

/// Lines are told by their numbers, a symbol by the line that declares it.
#[derive(Clone, Debug, PartialEq, Eq)]
pub enum Breach {
    /// Not one live declaration has the symbol's name, but so many.
    NotOnce {
        assertion: usize,
        symbol: String,
        times: usize,
    },
    /// A declaration of the name behind the assertion, or at a higher level.
    NotEarlier {
        assertion: usize,
        symbol: String,
        declaration: usize,
    },
    /// A declaration of the name that is of something else.
    NotItsOwn {
        assertion: usize,
        symbol: String,
        declaration: usize,
    },
    /// A declaration of the name of a built-in operator that is used.
    Operator {
        assertion: usize,
        operator: String,
        declaration: usize,
    },
    /// A declaration of the name of a built-in sort.
    BuiltInSort { declaration: usize },
    /// A line and the next one, which has a lower number or level.
    Order { line: usize, next: usize },
    /// An assertion that is of no term which could stand there.
    NoTerm { assertion: usize },
    /// A level that is too many, or lacks the assertion of its node or goal.
    Level { level: usize },
}

/// An assertion with the term that it is of.
#[derive(Clone, Debug)]
pub struct Asserted<'b> {
    pub line: usize,
    pub level: usize,
    pub term: usize,
    pub found: TermSymbols<'b>,
}

/// What was looked at, and what is wrong.
#[derive(Clone, Debug, Default)]
pub struct Look<'b> {
    pub assertions: Vec<Asserted<'b>>,
    pub breaches: Vec<Breach>,
}

impl<'b> Look<'b> {
    /// How many symbols were looked at.
    pub fn symbols(&self) -> usize {
        let found = self.assertions.iter().map(|asserted| &asserted.found);
        found.map(|found| found.symbols.len()).sum()
    }

    fn add(&mut self, (asserted, breaches): (Asserted<'b>, Vec<Breach>)) {
        self.assertions.push(asserted);
        self.breaches.extend(breaches);
    }

    fn no_term(&mut self, line: &Line) {
        let assertion = line.number;
        self.breaches.push(Breach::NoTerm { assertion });
    }
}

/// A moment between two calls of a list.
pub struct Moment<'m, 'b> {
    pub program: &'m Program<'b>,
    pub node: usize,
    /// While a reply or a model is owed.
    pub goal: Option<usize>,
    pub live: &'m LiveLines,
}

impl<'b> Moment<'_, 'b> {
    pub fn look(&self) -> Look<'b> {
        let mut look = Look {
            assertions: Vec::new(),
            breaches: breaches_of_lines(self.live.lines()),
        };
        let levels = last_of_levels(self.program, self.node, self.goal);
        let too_many = levels.len()..self.live.levels();
        let breaches = too_many.map(|level| Breach::Level { level });
        look.breaches.extend(breaches);
        let mut taken = BTreeSet::new();
        for (level, last) in levels.into_iter().enumerate() {
            self.look_at(level, last, &mut taken, &mut look);
        }
        look
    }

    /// How many live declarations have the name of a symbol.
    pub fn times(&self, symbol: &Symbol) -> usize {
        let name = symbol.name(self.program);
        self.declarations(symbol.is_sort(), &name).count()
    }

    /// A level; taken are the axioms of the lines before.
    fn look_at(
        &self,
        level: usize,
        last: Option<Said>,
        taken: &mut BTreeSet<usize>,
        look: &mut Look<'b>,
    ) {
        let mut lines: Vec<&Line> = self.live.at(level).collect();
        let last = last.map(|said| (said, lines.pop()));
        for line in lines {
            if line.command == Command::Assert {
                self.look_at_axiom(line, taken, look);
            }
        }
        match last {
            None => {}
            Some((_, None)) => look.breaches.push(Breach::Level { level }),
            Some((said, Some(line))) if said.is_line(self.program, &line.text) => {
                look.add(self.read(line, said.term()));
            }
            Some((_, Some(line))) => look.no_term(line),
        }
    }

    /// An axiom is live once. Some print alike, since patterns of a quantifier
    /// without variables are not printed: of these it is the first that is not
    /// taken and has no breach.
    fn look_at_axiom(&self, line: &Line, taken: &mut BTreeSet<usize>, look: &mut Look<'b>) {
        let axioms = self.program.axioms.iter().enumerate();
        let fitting = axioms
            .filter(|(axiom, _)| !taken.contains(axiom))
            .filter_map(|(axiom, record)| Some((axiom, record.term?)))
            .filter(|(_, term)| Said::Term(*term).is_line(self.program, &line.text))
            .map(|(axiom, term)| (axiom, self.read(line, term)));
        match fitting.min_by_key(|(_, (_, breaches))| !breaches.is_empty()) {
            Some((axiom, read)) => {
                taken.insert(axiom);
                look.add(read);
            }
            None => look.no_term(line),
        }
    }

    /// An assertion of a term, and the breaches of its symbols and operators.
    fn read(&self, line: &Line, term: usize) -> (Asserted<'b>, Vec<Breach>) {
        let found = TermSymbols::of(self.program, term);
        let mut breaches = Vec::new();
        for symbol in &found.symbols {
            self.meet(line, symbol, &mut breaches);
        }
        for operator in &found.operators {
            let declarations = self.declarations(false, operator);
            breaches.extend(declarations.map(|declaration| Breach::Operator {
                assertion: line.number,
                operator: readable(operator),
                declaration: declaration.number,
            }));
        }
        let asserted = Asserted {
            line: line.number,
            level: line.level,
            term,
            found,
        };
        (asserted, breaches)
    }

    /// A symbol in an assertion.
    fn meet(&self, line: &Line, symbol: &Symbol, breaches: &mut Vec<Breach>) {
        let assertion = line.number;
        let own = symbol.declaration(self.program);
        let shown = || readable(&own);
        let times = self.times(symbol);
        if times != 1 {
            let symbol = shown();
            breaches.push(Breach::NotOnce {
                assertion,
                symbol,
                times,
            });
        }
        let name = symbol.name(self.program);
        for declared in self.declarations(symbol.is_sort(), &name) {
            let declaration = declared.number;
            if declaration >= assertion || declared.level > line.level {
                let symbol = shown();
                breaches.push(Breach::NotEarlier {
                    assertion,
                    symbol,
                    declaration,
                });
            }
            if declared.text != own {
                let symbol = shown();
                breaches.push(Breach::NotItsOwn {
                    assertion,
                    symbol,
                    declaration,
                });
            }
        }
    }

    /// The live lines that declare a name in one of the two name spaces.
    fn declarations<'a>(&'a self, of_sort: bool, name: &'a [u8]) -> impl Iterator<Item = &'a Line> {
        let is_its = move |line: &&Line| match &line.command {
            Command::DeclareSort(declared) => of_sort && declared == name,
            Command::DeclareFun(declared) => !of_sort && declared == name,
            Command::Assert => false,
        };
        self.live.lines().iter().filter(is_its)
    }
}

/// What is wrong with live lines, whatever the book is.
pub fn breaches_of_lines(lines: &[Line]) -> Vec<Breach> {
    let mut breaches = Vec::new();
    for (line, next) in lines.iter().zip(lines.iter().skip(1)) {
        if line.number >= next.number || line.level > next.level {
            let [line, next] = [line, next].map(|line| line.number);
            breaches.push(Breach::Order { line, next });
        }
    }
    for line in lines {
        match &line.command {
            Command::DeclareSort(name) if BUILT_IN_SORTS.contains(&&name[..]) => {
                let declaration = line.number;
                breaches.push(Breach::BuiltInSort { declaration });
            }
            _ => {}
        }
    }
    breaches
}

/// Names and lines are ASCII.
fn readable(text: &[u8]) -> String {
    String::from_utf8_lossy(text).into_owned()
}
