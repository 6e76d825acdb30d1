//! Damage to books: one or several faults of every sort that the book test
//! looks for. A damaged book may still pass.

use crate::book::{contents_place, number_at, Section, CONTENTS_SIZE, NUMBER_SIZE};
use crate::book_test::{FIRST_LETTER, LAST_LETTER, MOST_DEPTH};
use crate::maker::Maker;
use crate::random::{Random, AT_TIMES, HARDLY_EVER, OFTEN};
use crate::random_names::spoil_names;

/// A count this much larger closes the table modulo 2^32, since every record
/// of numbers has a multiple of four bytes.
const WRAPPING_COUNT: u32 = 1 << 30;
const BAD_LETTERS: [u8; 6] = [0x00, 0x0A, FIRST_LETTER - 1, LAST_LETTER + 1, 0x80, 0xFF];
/// The most bytes of a book made of noise, or added behind a book.
const NOISE: usize = 200;
/// The most faults in the bytes of one book.
const FAULTS: usize = 3;

type RecordDamage = fn(&mut Random, &mut Maker);
type ByteDamage = fn(&mut Random, Vec<u8>) -> Vec<u8>;

const RECORD_DAMAGES: [RecordDamage; 5] = [
    exceed_limit,
    refer_twice,
    nest_too_deep,
    spoil_letter,
    spoil_names,
];
const BYTE_DAMAGES: [ByteDamage; 7] = [
    change_field,
    change_field,
    change_byte,
    change_contents,
    wrap_contents,
    cut,
    extend,
];

/// The bytes of a book with one or several faults.
pub fn damaged(random: &mut Random, maker: &Maker) -> Vec<u8> {
    if random.one_in(HARDLY_EVER) {
        let length = random.up_to(NOISE);
        return random.bytes(length);
    }
    let mut maker = maker.clone();
    let in_records = random.one_in(OFTEN);
    if in_records {
        random.pick(&RECORD_DAMAGES)(random, &mut maker);
    }
    let mut book = maker.book();
    if !in_records || random.one_in(AT_TIMES) {
        for _ in 0..=random.below(FAULTS) {
            book = random.pick(&BYTE_DAMAGES)(random, book);
        }
    }
    book
}

/// One record more than a section may have, with its body.
fn exceed_limit(random: &mut Random, maker: &mut Maker) {
    let section = random.pick(&Section::ALL);
    let count = section.most() + 1;
    match section {
        Section::Letters => maker.letters.resize(count, FIRST_LETTER),
        Section::Names => maker.names.resize(count, Default::default()),
        Section::Types => maker.types.resize(count, Default::default()),
        Section::Constants => maker.constants.resize(count, Default::default()),
        Section::Functions => maker.functions.resize(count, Default::default()),
        Section::Axioms => maker.axioms.resize(count, Default::default()),
        Section::Patterns => maker.patterns.resize(count, Default::default()),
        Section::Terms => maker.terms.resize(count, Default::default()),
        Section::Contexts => maker.contexts.resize(count, Default::default()),
        Section::Lists => maker.lists.resize(count, Default::default()),
    }
}

/// Copies a context's term or a list entry over another one.
fn refer_twice(random: &mut Random, maker: &mut Maker) {
    if maker.contexts.len() >= 2 && random.one_in(OFTEN) {
        let from = random.below(maker.contexts.len());
        let to = random.below(maker.contexts.len());
        let [_, term, _] = maker.contexts[from];
        maker.contexts[to][1] = term;
    } else if !maker.lists.is_empty() {
        let from = random.below(maker.lists.len());
        let to = random.below(maker.lists.len());
        maker.lists[to] = maker.lists[from];
    }
}

/// A chain of nodes one deeper than passes.
fn nest_too_deep(_random: &mut Random, maker: &mut Maker) {
    let mut node = 0;
    for _ in 0..=MOST_DEPTH {
        let term = maker.boolean(true);
        node = maker.context(node, term);
    }
}

fn spoil_letter(random: &mut Random, maker: &mut Maker) {
    if !maker.letters.is_empty() {
        let at = random.below(maker.letters.len());
        maker.letters[at] = random.pick(&BAD_LETTERS);
    }
}

/// Changes a number of some record.
fn change_field(random: &mut Random, mut book: Vec<u8>) -> Vec<u8> {
    let section = random.pick(&Section::ALL[Section::Names as usize..]);
    if let Some((offset, count)) = contents(&book, section) {
        let bytes = count as usize * section.record_size();
        let end = (offset as usize).saturating_add(bytes);
        if bytes > 0 && end <= book.len() {
            let field = random.below(bytes / NUMBER_SIZE);
            change_number(random, &mut book, offset as usize + field * NUMBER_SIZE);
        }
    }
    book
}

fn change_byte(random: &mut Random, mut book: Vec<u8>) -> Vec<u8> {
    if !book.is_empty() {
        let at = random.below(book.len());
        book[at] = random.number() as u8;
    }
    book
}

/// Changes an offset or a count.
fn change_contents(random: &mut Random, mut book: Vec<u8>) -> Vec<u8> {
    if book.len() >= CONTENTS_SIZE {
        let at = random.below(CONTENTS_SIZE / NUMBER_SIZE) * NUMBER_SIZE;
        change_number(random, &mut book, at);
    }
    book
}

/// A count that closes the table only modulo 2^32.
fn wrap_contents(random: &mut Random, mut book: Vec<u8>) -> Vec<u8> {
    let section = random.pick(&Section::ALL[Section::Names as usize..]);
    if let Some((_, count)) = contents(&book, section) {
        let at = contents_place(section) + NUMBER_SIZE;
        put_number(&mut book, at, count.wrapping_add(WRAPPING_COUNT));
    }
    book
}

fn cut(random: &mut Random, mut book: Vec<u8>) -> Vec<u8> {
    book.truncate(random.up_to(book.len()));
    book
}

fn extend(random: &mut Random, mut book: Vec<u8>) -> Vec<u8> {
    let length = random.up_to(NOISE);
    book.extend(random.bytes(length));
    book
}

/// Puts a number there that lies at some bound, or near the old one.
fn change_number(random: &mut Random, book: &mut [u8], at: usize) {
    let old = number_at(book, at);
    let section = random.pick(&Section::ALL);
    let count = contents(book, section).map_or(0, |(_, count)| count);
    let values = [
        0,
        1,
        old.wrapping_add(1),
        old.wrapping_sub(1),
        count.wrapping_sub(1),
        count,
        count.wrapping_add(1),
        count.wrapping_add(2),
        u32::MAX,
        u32::MAX - 1,
        1 << 31,
        random.number() as u32,
    ];
    put_number(book, at, random.pick(&values));
}

/// A section's offset and count, if the book has a table at all.
fn contents(book: &[u8], section: Section) -> Option<(u32, u32)> {
    let at = contents_place(section);
    (book.len() >= CONTENTS_SIZE).then(|| (number_at(book, at), number_at(book, at + NUMBER_SIZE)))
}

fn put_number(book: &mut [u8], at: usize, number: u32) {
    book[at..at + NUMBER_SIZE].copy_from_slice(&number.to_le_bytes());
}
