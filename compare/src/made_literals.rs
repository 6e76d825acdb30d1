//! Books of as many literals as there can be, and books for where a literal
//! is declared and where it is found.

use leskofar_reference::book::{kind, Section, BOOL, INT};
use leskofar_reference::book_test::MOST_DEPTH;
use leskofar_reference::maker::Maker;

/// A literal's name and type.
pub type Literal = [u32; 2];
/// Writes names and types, and gives the literals that a book's terms are in
/// turn.
pub type Filling = fn(&mut Maker) -> Vec<Literal>;

const TERMS: usize = Section::Terms.most();
const NODES: usize = Section::Contexts.most();
const NAMES: usize = Section::Names.most();
/// So long that as many names as there can be fill the letters.
const NAME_LETTERS: usize = Section::Letters.most() / NAMES;
/// The record that operators share, which so take no name from the literals.
pub const FIRST_NAME: u32 = 0;
/// Names that a goal below the deepest node declares.
pub const NEW_NAMES: usize = 2;

/// Names of one length that differ in their last letters.
fn text(number: usize) -> String {
    format!("{number:0NAME_LETTERS$}")
}

pub fn one_name(m: &mut Maker) -> Vec<Literal> {
    vec![[m.name(&text(0)), INT]]
}

pub fn two_names(m: &mut Maker) -> Vec<Literal> {
    [0, 1].map(|number| [m.name(&text(number)), INT]).into()
}

/// As many records as there can be, all with their own letters.
pub fn equal_names(m: &mut Maker) -> Vec<Literal> {
    let names = (0..NAMES).map(|_| m.name(&text(0)));
    names.map(|name| [name, INT]).collect()
}

/// As many records as there can be, all with the same letters.
pub fn one_place(m: &mut Maker) -> Vec<Literal> {
    m.name(&text(0));
    m.names = vec![m.names[0]; NAMES];
    (0..NAMES as u32).map(|name| [name, INT]).collect()
}

pub fn different_names(m: &mut Maker) -> Vec<Literal> {
    let names = (0..NAMES).map(|number| m.name(&text(number)));
    names
        .flat_map(|name| [BOOL, INT].map(|typ| [name, typ]))
        .collect()
}

/// `%tag` of several types between others, and literals that a declared `%tag`
/// would be taken for.
pub fn tags_between(m: &mut Maker) -> Vec<Literal> {
    let [long, short] = ["a:b", "b"].map(|name| m.user_type(name));
    [
        ("x", INT),
        ("%tag", INT),
        ("y", INT),
        ("%tag", long),
        ("%tag:a", short),
        ("%tag", BOOL),
        ("%ta", INT),
        ("%tags", long),
    ]
    .map(|(text, typ)| [m.name(text), typ])
    .into()
}

/// The same text at one place, at two, and by two splits.
pub fn same_text(m: &mut Maker) -> Vec<Literal> {
    let [long, short] = ["b:c", "c"].map(|name| m.user_type(name));
    [("a", long), ("a:b", short), ("a", long)]
        .map(|(text, typ)| [m.name(text), typ])
        .into()
}

/// Literals in turn.
struct Turns {
    literals: Vec<Literal>,
    taken: usize,
}

impl Turns {
    fn new(m: &mut Maker, fill: Filling) -> Turns {
        let literals = fill(m);
        Turns { literals, taken: 0 }
    }

    fn next(&mut self, m: &mut Maker) -> u32 {
        let literal = self.literals[self.taken % self.literals.len()];
        self.taken += 1;
        m.term(kind::CUSTOM_LITERAL, literal)
    }
}

/// All terms are literals, and as many as there can be nodes have one each,
/// the first node the last term. The nodes are chains that are as deep as they
/// may be.
pub fn literal_nodes(fill: Filling) -> Maker {
    let mut m = Maker::default();
    let mut turns = Turns::new(&mut m, fill);
    for _ in 0..TERMS {
        turns.next(&mut m);
    }
    for node in 0..NODES {
        let is_first = node % MOST_DEPTH == 0;
        let parent = if is_first { 0 } else { node };
        m.context(parent as u32, (TERMS - 1 - node) as u32);
    }
    m
}

/// A node whose term has all the others as arguments, which are literals,
/// from the lowest or from the highest.
pub fn literal_arguments(fill: Filling, highest_first: bool) -> Maker {
    let mut m = Maker::default();
    let mut turns = Turns::new(&mut m, fill);
    let mut args: Vec<u32> = (1..TERMS).map(|_| turns.next(&mut m)).collect();
    if highest_first {
        args.reverse();
    }
    let [start, count] = m.list(&args);
    let term = m.term(kind::BUILT_IN, [FIRST_NAME, start, count]);
    m.context(0, term);
    m
}

/// So many literals of two names in turn. Node 1 has the last, node 2 below it
/// the first of that name, and node 3 below that one of the other name.
pub fn declared_last(terms: usize) -> Maker {
    let mut m = Maker::default();
    let mut turns = Turns::new(&mut m, two_names);
    for _ in 0..terms {
        turns.next(&mut m);
    }
    let last = terms as u32 - 1;
    for (above, term) in [last, last % 2, (last + 1) % 2].into_iter().enumerate() {
        m.context(above as u32, term);
    }
    m
}

/// A chain of nodes that is as deep as it may be, each a literal of another
/// name. The last term is a goal with the first and the last of these, and with
/// two new ones more than once.
pub fn below_the_deepest() -> Maker {
    let mut m = Maker::default();
    let mut turns = Turns::new(&mut m, different_names);
    for node in 0..MOST_DEPTH {
        let premise = turns.next(&mut m);
        m.context(node as u32, premise);
    }
    let [first, last] = [m.terms[0], m.terms[MOST_DEPTH - 1]];
    let new = [(); NEW_NAMES].map(|()| turns.next(&mut m));
    let new = new.map(|term| m.terms[term as usize]);
    let begin = m.terms.len() as u32;
    let arguments = [new[0], new[0], first, last, new[1], new[0], new[1]];
    m.terms.extend(arguments);
    let args: Vec<u32> = (begin..m.terms.len() as u32).collect();
    let [start, count] = m.list(&args);
    m.term(kind::BUILT_IN, [FIRST_NAME, start, count]);
    m
}

/// A book for a literal in a function's axiom, and the goals to be asked.
pub struct InAxiom {
    pub maker: Maker,
    pub literal: u32,
    pub applied: u32,
}

/// All literals here are of one text. The function's axiom has one. Node 1
/// applies the function, node 2 below it is a literal; node 3 is a literal,
/// node 4 below it applies the function; node 5 applies it to a literal, node 6
/// has a literal and then the function.
pub fn in_axiom() -> InAxiom {
    let mut m = Maker::default();
    let mut turns = Turns::new(&mut m, same_text);
    let f = m.function("f", &[], INT);
    let args = [turns.next(&mut m)];
    let term = m.built_in("not", &args);
    let axiom = m.axiom(Some(term), &[f]);
    m.explained_by(f, &[axiom]);
    let premise = m.apply(f, &[]);
    let above = m.context(0, premise);
    let premise = turns.next(&mut m);
    m.context(above, premise);
    let premise = turns.next(&mut m);
    let above = m.context(0, premise);
    let premise = m.apply(f, &[]);
    m.context(above, premise);
    let args = [turns.next(&mut m)];
    let premise = m.apply(f, &args);
    m.context(0, premise);
    let args = [turns.next(&mut m), m.apply(f, &[])];
    let premise = m.built_in("and", &args);
    m.context(0, premise);
    let [literal, applied] = [turns.next(&mut m), m.apply(f, &[])];
    InAxiom {
        maker: m,
        literal,
        applied,
    }
}

/// Literals of one text: node 1 and node 2 are siblings, node 3 is below 1 and
/// node 4 below 2. The last term is a goal.
pub fn siblings(fill: Filling) -> Maker {
    let mut m = Maker::default();
    let mut turns = Turns::new(&mut m, fill);
    for above in [0, 0, 1, 2] {
        let premise = turns.next(&mut m);
        m.context(above, premise);
    }
    turns.next(&mut m);
    m
}
