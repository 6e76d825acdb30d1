//! Books at and beside every border of the book test.

use leskofar_reference::book::{Section, CONTENTS_SIZE, NUMBER_SIZE};
use leskofar_reference::book_test::MOST_DEPTH;
use leskofar_reference::maker::{sample, small, Maker};
use leskofar_reference::random::Random;
use leskofar_reference::random_books::{random_book, Counts};

/// Every kind of term, a listed and an unlisted pattern, nodes with and
/// without a trace, a function with two axioms, one of them without a term.
pub fn full() -> Maker {
    let mut m = Maker::default();
    let typ = m.user_type("T");
    let [x, y] = [m.constant("x", 1), m.constant("y", typ)];
    let f = m.function("f", &[1, typ], 0);
    let args = [m.id(x), m.id(y)];
    let applied = m.apply(f, &args);
    let stated = m.axiom(Some(applied), &[f]);
    let missing = m.axiom(None, &[]);
    m.explained_by(f, &[stated, missing]);
    let patterns = [m.id(x)];
    let listed = m.pattern(&patterns);
    m.pattern(&[]);
    let body = m.boolean(true);
    let quantified = m.quantifier(true, &[x, y], &[listed], body);
    let [guard, one, literal] = [m.boolean(false), m.integer(-1), m.literal("a", typ)];
    let chosen = m.if_then_else(guard, one, literal);
    let bound = m.let_expr(x, quantified, chosen);
    let both = m.built_in("and", &[bound]);
    let node = m.traced_context(0, both, "here");
    let below = m.boolean(true);
    m.context(node, below);
    m
}

/// The sample and the examples, and every section at its limit.
pub fn good_books() -> Vec<Maker> {
    let limits = random_book(&mut Random::new(1), Counts::limits());
    vec![
        Maker::default(),
        sample().maker,
        small().maker,
        full(),
        limits,
    ]
}

/// One record more than each section may have, its body there and absent.
pub fn over_the_limits() -> Vec<Vec<u8>> {
    let mut books = Vec::new();
    for section in Section::ALL {
        let mut book = full().book();
        let place = section as usize * 2 * NUMBER_SIZE + NUMBER_SIZE;
        let counted = (section.most() as u32 + 1).to_le_bytes();
        book[place..place + NUMBER_SIZE].copy_from_slice(&counted);
        books.push(book);
        for count in [section.most(), section.most() + 1] {
            books.push(resized(section, count).book());
        }
    }
    books
}

/// A book with just so many records of one section, which may be bad ones.
fn resized(section: Section, count: usize) -> Maker {
    let mut m = full();
    match section {
        Section::Letters => m.letters.resize(count, b' '),
        Section::Names => m.names.resize(count, Default::default()),
        Section::Types => m.types.resize(count, Default::default()),
        Section::Constants => m.constants.resize(count, Default::default()),
        Section::Functions => m.functions.resize(count, Default::default()),
        Section::Axioms => m.axioms.resize(count, Default::default()),
        Section::Patterns => m.patterns.resize(count, Default::default()),
        Section::Terms => m.terms.resize(count, Default::default()),
        Section::Contexts => m.contexts.resize(count, Default::default()),
        Section::Lists => m.lists.resize(count, Default::default()),
    }
    m
}

/// Chains of nodes of a depth.
pub fn chain(depth: usize) -> Maker {
    let mut m = Maker::default();
    let mut node = 0;
    for _ in 0..depth {
        let term = m.boolean(true);
        node = m.context(node, term);
    }
    m
}

/// As many nodes as a book can have, all but one at most as deep as they may
/// be: the node with this number is a level deeper. The others that the chain
/// down to it does not need hang below the root, before it and behind it.
pub fn too_deep_at(node: usize) -> Maker {
    let mut m = Maker::default();
    let aside = node - MOST_DEPTH - 1;
    let mut deepest = 0;
    for number in 1..=Section::Contexts.most() {
        let term = m.boolean(true);
        // The chain has a node aside behind each of its first ones.
        let is_aside = number > node || (number % 2 == 0 && number / 2 <= aside);
        let parent = if is_aside { 0 } else { deepest };
        let added = m.context(parent, term);
        if !is_aside {
            deepest = added;
        }
    }
    m
}

/// The book with each of its numbers, contents and fields and list entries,
/// changed to every number that is a border of something.
pub fn each_number_changed(m: &Maker, visit: &mut impl FnMut(&[u8])) {
    let book = m.book();
    let mut borders: Vec<u32> = Section::ALL
        .iter()
        .flat_map(|section| {
            let place = *section as usize * 2 * NUMBER_SIZE + NUMBER_SIZE;
            let count = number(&book, place);
            [
                count.wrapping_sub(1),
                count,
                count + 1,
                count + 2,
                section.most() as u32,
                section.most() as u32 + 1,
            ]
        })
        .chain([0, 1, 2, 3, 8, 9, 1 << 30, 1 << 31, u32::MAX - 1, u32::MAX])
        .collect();
    borders.sort_unstable();
    borders.dedup();
    let records = number(&book, 2 * NUMBER_SIZE) as usize;
    let places = (0..CONTENTS_SIZE)
        .chain(records..book.len())
        .step_by(NUMBER_SIZE)
        .filter(|place| place + NUMBER_SIZE <= book.len());
    let mut changed = book.clone();
    for place in places {
        for border in &borders {
            changed[place..place + NUMBER_SIZE].copy_from_slice(&border.to_le_bytes());
            visit(&changed);
        }
        changed[place..place + NUMBER_SIZE].copy_from_slice(&book[place..place + NUMBER_SIZE]);
    }
}

fn number(book: &[u8], place: usize) -> u32 {
    let bytes = &book[place..place + NUMBER_SIZE];
    u32::from_le_bytes(bytes.try_into().expect("four bytes"))
}

/// A fault in the records for each refusal from 3 to 6 and for 28, to be put
/// together so that the order shows.
fn faults() -> [fn(&mut Maker); 5] {
    [
        |m| m.names.resize(Section::Names.most() + 1, [0, 0]),
        |m| m.letters.push(0x1F),
        |m| {
            let term = m.contexts[0][1];
            m.context(0, term);
        },
        |m| {
            let mut node = 0;
            for _ in 0..=MOST_DEPTH {
                let term = m.boolean(true);
                node = m.context(node, term);
            }
        },
        |m| {
            m.user_type("a|b");
        },
    ]
}

/// The full book with every choice of those faults, and each with a byte too
/// many, which is 2.
pub fn faulty_books() -> Vec<Vec<u8>> {
    each_fault(&full())
}

/// The same of another book that has nodes.
pub fn each_fault(good: &Maker) -> Vec<Vec<u8>> {
    let mut books = Vec::new();
    for choice in 0..1 << faults().len() {
        let mut m = good.clone();
        for (k, fault) in faults().iter().enumerate() {
            if choice >> k & 1 == 1 {
                fault(&mut m);
            }
        }
        let book = m.book();
        let longer = [&book[..], &[0]].concat();
        books.extend([book, longer]);
    }
    books
}
