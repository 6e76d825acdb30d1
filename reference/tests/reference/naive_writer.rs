//! A plainer view of the writer: what a call adds to each section, as bytes,
//! and the whole put together by hand. The order of refusals is that of the
//! page; what a book is refused for is the book test's.

use crate::writer_desk::Growth;
use leskofar_reference::book::number_at;
use leskofar_reference::book_test;
use leskofar_reference::book_test::SCRATCH_SIZE;

const SECTIONS: usize = 10;
const SIZES: [usize; SECTIONS] = [1, 8, 4, 8, 24, 12, 8, 28, 12, 4];
const MOST: [usize; SECTIONS] = [8192, 512, 64, 256, 128, 128, 128, 1024, 512, 2048];
const LETTERS: usize = 0;
const NAMES: usize = 1;
const CONSTANTS: usize = 3;
const TERMS: usize = 7;
const CONTEXTS: usize = 8;
const LISTS: usize = 9;
const TABLE: usize = 8 * SECTIONS;

/// The bodies of a book, which a call adds to.
struct Bodies([Vec<u8>; SECTIONS]);

impl Bodies {
    fn of(book: &[u8]) -> Bodies {
        Bodies(std::array::from_fn(|section| {
            let [start, count] = [0, 4].map(|at| number_at(book, section * 8 + at) as usize);
            book[start..start + count * SIZES[section]].to_vec()
        }))
    }

    /// Whole records of a section.
    fn count(&self, section: usize) -> usize {
        self.0[section].len() / SIZES[section]
    }

    fn add(&mut self, section: usize, numbers: &[usize]) -> usize {
        let number = self.count(section);
        for field in numbers {
            self.0[section].extend((*field as u32).to_le_bytes());
        }
        number
    }

    fn add_name(&mut self, text: &[u8]) -> usize {
        let start = if text.is_empty() {
            0
        } else {
            self.count(LETTERS)
        };
        self.0[LETTERS].extend(text);
        self.add(NAMES, &[start, text.len()])
    }

    /// From the last name to the first, so that the first stays.
    fn name_with(&mut self, text: &[u8]) -> usize {
        let mut found = None;
        for name in (0..self.count(NAMES)).rev() {
            let [start, length] =
                [0, 4].map(|at| number_at(&self.0[NAMES], name * 8 + at) as usize);
            if self.0[LETTERS].get(start..start + length) == Some(text) {
                found = Some(name);
            }
        }
        found.unwrap_or_else(|| self.add_name(text))
    }

    fn add_list(&mut self, list: &[u8]) -> [usize; 2] {
        let start = self.count(LISTS);
        self.0[LISTS].extend(&list[..list.len() / 4 * 4]);
        match self.count(LISTS) - start {
            0 => [0, 0],
            count => [start, count],
        }
    }

    fn add_equality(&mut self, constant: usize, term: usize) -> usize {
        let name = self.name_with(b"=");
        let id = self.add(TERMS, &[3, constant, 0, 0, 0, 0, 0]);
        let start = self.add(LISTS, &[id, term]);
        self.add(TERMS, &[4, name, start, 2, 0, 0, 0])
    }

    fn depth(&self, mut node: usize) -> usize {
        let mut depth = 0;
        while node > 0 {
            node = number_at(&self.0[CONTEXTS], (node - 1) * 12) as usize;
            depth += 1;
        }
        depth
    }

    fn add_probe(&mut self, parent: usize, typ: usize) -> [usize; 2] {
        let probe = String::from("probe%") + &self.depth(parent).to_string();
        let name = self.name_with(probe.as_bytes());
        [name, self.add(CONSTANTS, &[name, typ])]
    }

    fn book(&self) -> Vec<u8> {
        let mut table = Vec::new();
        let mut bodies = Vec::new();
        for (section, body) in self.0.iter().enumerate() {
            table.extend(((TABLE + bodies.len()) as u32).to_le_bytes());
            table.extend((self.count(section) as u32).to_le_bytes());
            bodies.extend(body);
        }
        [table, bodies].concat()
    }
}

fn tested(book: &[u8]) -> Result<(), u32> {
    book_test(book, &mut [0; SCRATCH_SIZE])
}

/// The number that is answered and the grown book, or the refusal, with a
/// buffer that is long enough.
pub fn naive_grown(book: &[u8], growth: &Growth) -> Result<(u32, Vec<u8>), u32> {
    tested(book)?;
    let mut bodies = Bodies::of(book);
    let [terms, nodes] = [TERMS, CONTEXTS].map(|section| bodies.count(section) as u32);
    let (parent, term) = match growth {
        Growth::Name(_) | Growth::Constant(_) | Growth::Term(..) => (None, None),
        Growth::Node([parent, term, _])
        | Growth::Extend([parent, term], _)
        | Growth::Equality([parent, _, term])
        | Growth::Record([parent, term, _], _) => (Some(*parent), Some(*term)),
        Growth::TracePoint(parent, _) => (Some(*parent), None),
    };
    if parent.is_some_and(|parent| parent > nodes) || term.is_some_and(|term| term >= terms) {
        return Err(7);
    }
    let (number, handed_right) = add(&mut bodies, growth);
    if (0..SECTIONS).any(|section| bodies.count(section) > MOST[section]) {
        return Err(3);
    }
    if !handed_right {
        return Err(4);
    }
    let grown = bodies.book();
    tested(&grown)?;
    Ok((number as u32, grown))
}

/// Gives the number that is answered, and whether all was handed over as it is
/// to be.
fn add(bodies: &mut Bodies, growth: &Growth) -> (usize, bool) {
    let node = |bodies: &mut Bodies, parent: u32, term, trace| {
        bodies.add(CONTEXTS, &[parent as usize, term, trace]) + 1
    };
    let number = match growth {
        Growth::Name(text) => bodies.add_name(text),
        Growth::Constant(fields) => bodies.add(CONSTANTS, &fields.map(|field| field as usize)),
        Growth::Term(record, lists) => return add_term(bodies, record, lists),
        Growth::Node([parent, term, trace]) => {
            node(bodies, *parent, *term as usize, *trace as usize)
        }
        Growth::Extend([parent, term], trace) => {
            let trace = trace.as_ref().map(|text| bodies.name_with(text) + 1);
            node(bodies, *parent, *term as usize, trace.unwrap_or(0))
        }
        Growth::Equality([parent, constant, term]) => {
            let equality = bodies.add_equality(*constant as usize, *term as usize);
            node(bodies, *parent, equality, 0)
        }
        Growth::Record([parent, term, typ], trace) => {
            let [name, constant] = bodies.add_probe(*parent as usize, *typ as usize);
            let equality = bodies.add_equality(constant, *term as usize);
            let trace = trace.as_ref().map(|text| bodies.name_with(text));
            node(bodies, *parent, equality, trace.unwrap_or(name) + 1)
        }
        Growth::TracePoint(parent, trace) => {
            let [_, constant] = bodies.add_probe(*parent as usize, 0);
            let truth = bodies.add(TERMS, &[0, 1, 0, 0, 0, 0, 0]);
            let equality = bodies.add_equality(constant, truth);
            let trace = bodies.name_with(trace);
            node(bodies, *parent, equality, trace + 1)
        }
    };
    (number, true)
}

fn add_term(bodies: &mut Bodies, record: &[u32; 7], lists: &[Vec<u8>; 2]) -> (usize, bool) {
    let mut fields = record.map(|field| field as usize);
    let [first, second] = lists;
    let whole = first.len() % 4 == 0 && second.len() % 4 == 0;
    let handed_right = match record[0] {
        4 | 5 => {
            [fields[2], fields[3]] = bodies.add_list(first);
            whole && second.is_empty() && record[2] == 0 && record[3] == 0
        }
        8 => {
            [fields[2], fields[3]] = bodies.add_list(first);
            [fields[4], fields[5]] = bodies.add_list(second);
            whole && record[2..=5] == [0; 4]
        }
        _ => first.is_empty() && second.is_empty(),
    };
    (bodies.add(TERMS, &fields), handed_right)
}
