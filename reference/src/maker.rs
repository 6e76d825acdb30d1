//! A writer of books for tests. It checks nothing, so that bad books can be
//! written too; only the table of contents always fits.

use crate::book::{
    kind, Book, Section, AXIOM_FIELDS, BOOL, CONSTANT_FIELDS, CONTENTS_SIZE, CONTEXT_FIELDS,
    FIRST_USER_TYPE, FUNCTION_FIELDS, INT, NAME_FIELDS, NO_TERM, PATTERN_FIELDS, TERM_FIELDS,
    TYPE_FIELDS,
};

/// The sections' records, as numbers.
#[derive(Clone, Debug, Default)]
pub struct Maker {
    pub letters: Vec<u8>,
    pub names: Vec<[u32; NAME_FIELDS]>,
    pub types: Vec<[u32; TYPE_FIELDS]>,
    pub constants: Vec<[u32; CONSTANT_FIELDS]>,
    pub functions: Vec<[u32; FUNCTION_FIELDS]>,
    pub axioms: Vec<[u32; AXIOM_FIELDS]>,
    pub patterns: Vec<[u32; PATTERN_FIELDS]>,
    pub terms: Vec<[u32; TERM_FIELDS]>,
    pub contexts: Vec<[u32; CONTEXT_FIELDS]>,
    pub lists: Vec<u32>,
}

impl Maker {
    /// The records of a book that is laid out.
    pub fn of(book: Book) -> Maker {
        Maker {
            letters: book.letters().to_vec(),
            names: book.records(Section::Names).collect(),
            types: book.records(Section::Types).collect(),
            constants: book.records(Section::Constants).collect(),
            functions: book.records(Section::Functions).collect(),
            axioms: book.records(Section::Axioms).collect(),
            patterns: book.records(Section::Patterns).collect(),
            terms: book.records(Section::Terms).collect(),
            contexts: book.records(Section::Contexts).collect(),
            lists: book.records(Section::Lists).map(|[entry]| entry).collect(),
        }
    }

    /// The book's bytes.
    pub fn book(&self) -> Vec<u8> {
        let bodies = Section::ALL.map(|section| self.body(section));
        let mut book = Vec::new();
        let mut end = CONTENTS_SIZE;
        for (section, body) in Section::ALL.iter().zip(&bodies) {
            book.extend_from_slice(&(end as u32).to_le_bytes());
            let count = body.len() / section.record_size();
            book.extend_from_slice(&(count as u32).to_le_bytes());
            end += body.len();
        }
        book.extend(bodies.into_iter().flatten());
        book
    }

    fn body(&self, section: Section) -> Vec<u8> {
        match section {
            Section::Letters => self.letters.clone(),
            Section::Names => bytes(self.names.as_flattened()),
            Section::Types => bytes(self.types.as_flattened()),
            Section::Constants => bytes(self.constants.as_flattened()),
            Section::Functions => bytes(self.functions.as_flattened()),
            Section::Axioms => bytes(self.axioms.as_flattened()),
            Section::Patterns => bytes(self.patterns.as_flattened()),
            Section::Terms => bytes(self.terms.as_flattened()),
            Section::Contexts => bytes(self.contexts.as_flattened()),
            Section::Lists => bytes(&self.lists),
        }
    }

    /// How many records a section has.
    pub fn count(&self, section: Section) -> usize {
        match section {
            Section::Letters => self.letters.len(),
            Section::Names => self.names.len(),
            Section::Types => self.types.len(),
            Section::Constants => self.constants.len(),
            Section::Functions => self.functions.len(),
            Section::Axioms => self.axioms.len(),
            Section::Patterns => self.patterns.len(),
            Section::Terms => self.terms.len(),
            Section::Contexts => self.contexts.len(),
            Section::Lists => self.lists.len(),
        }
    }

    pub fn name(&mut self, text: &str) -> u32 {
        let start = self.letters.len() as u32;
        self.letters.extend_from_slice(text.as_bytes());
        add(&mut self.names, [start, text.len() as u32])
    }

    /// Gives the type number.
    pub fn user_type(&mut self, name: &str) -> u32 {
        let name = self.name(name);
        FIRST_USER_TYPE + add(&mut self.types, [name])
    }

    pub fn constant(&mut self, name: &str, typ: u32) -> u32 {
        let name = self.name(name);
        add(&mut self.constants, [name, typ])
    }

    /// A function that no axiom explains yet.
    pub fn function(&mut self, name: &str, inputs: &[u32], typ: u32) -> u32 {
        let name = self.name(name);
        let [start, count] = self.list(inputs);
        add(&mut self.functions, [name, typ, start, count, 0, 0])
    }

    /// Sets what explains a function.
    pub fn explained_by(&mut self, function: u32, axioms: &[u32]) {
        let [start, count] = self.list(axioms);
        let [name, typ, inputs, input_count, ..] = self.functions[function as usize];
        self.functions[function as usize] = [name, typ, inputs, input_count, start, count];
    }

    pub fn axiom(&mut self, term: Option<u32>, explains: &[u32]) -> u32 {
        let [start, count] = self.list(explains);
        add(&mut self.axioms, [term.unwrap_or(NO_TERM), start, count])
    }

    pub fn pattern(&mut self, terms: &[u32]) -> u32 {
        let range = self.list(terms);
        add(&mut self.patterns, range)
    }

    /// Gives start and count.
    pub fn list(&mut self, entries: &[u32]) -> [u32; 2] {
        let start = self.lists.len() as u32;
        self.lists.extend_from_slice(entries);
        [start, entries.len() as u32]
    }

    pub fn boolean(&mut self, b: bool) -> u32 {
        self.term(kind::BOOLEAN, [u32::from(b)])
    }

    pub fn integer(&mut self, x: i64) -> u32 {
        let high = (x as u64 >> u32::BITS) as u32;
        self.term(kind::INTEGER, [x as u32, high])
    }

    pub fn literal(&mut self, s: &str, typ: u32) -> u32 {
        let name = self.name(s);
        self.term(kind::CUSTOM_LITERAL, [name, typ])
    }

    pub fn id(&mut self, constant: u32) -> u32 {
        self.term(kind::ID, [constant])
    }

    pub fn built_in(&mut self, name: &str, args: &[u32]) -> u32 {
        let name = self.name(name);
        let [start, count] = self.list(args);
        self.term(kind::BUILT_IN, [name, start, count])
    }

    pub fn apply(&mut self, function: u32, args: &[u32]) -> u32 {
        let [start, count] = self.list(args);
        self.term(kind::FUNCTION, [function, start, count])
    }

    pub fn if_then_else(&mut self, guard: u32, thn: u32, els: u32) -> u32 {
        self.term(kind::IF_THEN_ELSE, [guard, thn, els])
    }

    pub fn let_expr(&mut self, v: u32, rhs: u32, body: u32) -> u32 {
        self.term(kind::LET, [v, rhs, body])
    }

    pub fn quantifier(&mut self, univ: bool, vv: &[u32], patterns: &[u32], body: u32) -> u32 {
        let [vv, vv_count] = self.list(vv);
        let [patterns, pattern_count] = self.list(patterns);
        let fields = [u32::from(univ), vv, vv_count, patterns, pattern_count, body];
        self.term(kind::QUANTIFIER, fields)
    }

    /// A term record; the fields that are not given are 0.
    pub fn term<const N: usize>(&mut self, kind: u32, fields: [u32; N]) -> u32 {
        let mut record = [0; TERM_FIELDS];
        record[0] = kind;
        record[1..=N].copy_from_slice(&fields);
        add(&mut self.terms, record)
    }

    /// Gives the node number.
    pub fn context(&mut self, parent: u32, term: u32) -> u32 {
        add(&mut self.contexts, [parent, term, 0]) + 1
    }

    pub fn traced_context(&mut self, parent: u32, term: u32, trace: &str) -> u32 {
        let name = self.name(trace);
        add(&mut self.contexts, [parent, term, name + 1]) + 1
    }
}

/// Adds a record and gives its number.
fn add<T>(records: &mut Vec<T>, record: T) -> u32 {
    records.push(record);
    records.len() as u32 - 1
}

fn bytes(numbers: &[u32]) -> Vec<u8> {
    numbers.iter().flat_map(|n| n.to_le_bytes()).collect()
}

/// The sample book of document 01, and the term that its session asks.
pub struct Sample {
    pub maker: Maker,
    pub goal: u32,
}

pub fn sample() -> Sample {
    let mut m = Maker::default();
    let [x, y, z] = ["x", "y", "z"].map(|name| m.constant(name, INT));
    let f = m.function("f", &[INT], INT);

    let args = [m.id(z)];
    let args = [m.apply(f, &args), m.id(z)];
    let body = m.built_in("=", &args);
    let axiom = m.quantifier(true, &[z], &[], body);
    let axiom = m.axiom(Some(axiom), &[f]);
    m.explained_by(f, &[axiom]);

    let args = [m.integer(0), m.id(x)];
    let positive = m.built_in("<", &args);
    let node = m.context(0, positive);
    let args = [m.id(x)];
    let args = [m.id(y), m.apply(f, &args)];
    let equal = m.built_in("=", &args);
    m.context(node, equal);
    let args = [m.id(x), m.integer(9)];
    let below = m.built_in("<", &args);
    m.context(node, below);

    let args = [m.id(y)];
    let args = [m.integer(0), m.apply(f, &args)];
    let goal = m.built_in("<", &args);
    Sample { maker: m, goal }
}

/// A book with the terms of document 01's examples P1 to P8.
pub struct Small {
    pub maker: Maker,
    pub zero: u32,
    pub minus_five: u32,
    pub least: u32,
    pub bare_and: u32,
    pub and_not: u32,
    pub let_three: u32,
    pub no_variables: u32,
    /// A node with P8's term.
    pub tagged_node: u32,
}

pub fn small() -> Small {
    let mut m = Maker::default();
    let zero = m.integer(0);
    let minus_five = m.integer(-5);
    let least = m.integer(i64::MIN);
    let bare_and = m.built_in("and", &[]);

    let [a, b] = ["a", "b"].map(|name| m.constant(name, BOOL));
    let args = [m.id(b)];
    let args = [m.id(a), m.built_in("not", &args)];
    let and_not = m.built_in("and", &args);

    let v = m.constant("v", INT);
    let [rhs, body] = [m.integer(3), m.id(v)];
    let let_three = m.let_expr(v, rhs, body);

    let terms = [m.id(a)];
    let pattern = m.pattern(&terms);
    let body = m.id(b);
    let no_variables = m.quantifier(true, &[], &[pattern], body);

    let typ = m.user_type("T");
    let t = m.constant("t", typ);
    let args = [m.id(t), m.literal("%tag", typ)];
    let tagged = m.built_in("=", &args);
    let tagged_node = m.context(0, tagged);
    Small {
        maker: m,
        zero,
        minus_five,
        least,
        bare_and,
        and_not,
        let_three,
        no_variables,
        tagged_node,
    }
}
