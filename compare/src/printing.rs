//! Printing against the reference: the answer, every byte of the text, every
//! byte behind it, and every scratch byte.

use crate::library;
use crate::made_books::{chain, full, good_books};
use crate::made_terms::{borders, nests};
use crate::print_call::{compare_last, compare_terms, Print, FLAGS, INDENTS, ONE_LINE, TAGS};
use crate::printed::{compare, left, told, Left, LONGER, LONGEST, ON_A_BOOK, SHORT_ROOMS};
use crate::random_inputs::{any_book, any_number, any_term, good_book};
use crate::scratch_bytes::{random_scratch, LEAST};
use crate::shapes::{visit, SHAPES};
use crate::strict_prints::Prints;
use crate::tally::{Met, Tally};
use leskofar_reference::book_test::{check, MOST_DEPTH, SCRATCH_SIZE};
use leskofar_reference::maker::{sample, small};
use leskofar_reference::operators::NAMES;
use leskofar_reference::random::Random;

const SEED: u64 = 0x7072_696E;
/// Random terms, each printed in both layouts.
const RANDOM_TERMS: usize = 100_000;
/// Terms of one random book.
const TERMS_OF_A_BOOK: usize = 8;
/// Random nodes of good and bad books.
const RANDOM_NODES: usize = 40_000;
/// Random calls on bad books, or for terms that are not there.
const REFUSED_CALLS: usize = 40_000;
/// Operator codes whose low bytes are those of good ones, and the last.
const FAR_CODES: [u32; 4] = [1 << 8 | 1, 1 << 16 | 2, 1 << 31 | 3, u32::MAX];

/// A call of trace. Gives what the library left.
pub fn compare_trace(
    book: &[u8],
    node: u32,
    room: usize,
    scratch: &[u8],
    met: &mut Met,
) -> Result<Left, String> {
    let theirs = left(room, scratch, |scratch, text| {
        told(leskofar_reference::trace(book, scratch, node, text))
    });
    let ours = left(room, scratch, |scratch, text| {
        library::trace(book, scratch, node, text)
    });
    compare(met, theirs, ours, scratch, || {
        format!("trace of node {node}, buffer {room}, {book:?}")
    })
}

/// Fails if the strict reader read nothing.
fn read_some(read: usize, said: String) -> Result<String, String> {
    if read == 0 {
        return Err("no print was read strictly".into());
    }
    Ok(format!("{said}, {read} read strictly"))
}

fn print_groups(tally: &mut Tally) {
    tally.group("print, terms at the borders", || {
        let mut met = Met::default();
        let mut read = 0;
        for m in [borders(), full(), sample().maker, small().maker] {
            read += compare_terms(&m.book(), &mut met)?;
        }
        read_some(read, met.all_of(&[0, 10])?)
    });
    tally.group("print, every buffer up to the text's length", || {
        let mut met = Met::default();
        let book = full().book();
        let program = check(&book).map_err(|refusal| format!("refused {refusal}"))?;
        for term in 0..program.terms.len() as u32 {
            for newlines in [ONE_LINE].into_iter().chain(FLAGS) {
                let call = Print {
                    book: &book,
                    term,
                    tag: 0,
                    newlines,
                    indent: 1,
                };
                for room in 0..=call.length(&program) as usize + LONGER {
                    call.compare(room, &LEAST, &mut met)?;
                }
            }
        }
        met.all_of(&[0, 10])
    });
    tally.group("print, as deep as a book can nest", || {
        let mut met = Met::default();
        let mut read = 0;
        for (name, m) in nests() {
            read +=
                compare_last(&m, &mut met).map_err(|difference| format!("{name}: {difference}"))?;
        }
        read_some(read, met.all_of(&[0, 10])?)
    });
    let random_terms = tally.share(RANDOM_TERMS);
    tally.group("print, random terms", || {
        let mut met = Met::default();
        let mut shapes = [Met::default(), Met::default()];
        let mut random = Random::new(SEED);
        let [mut printed, mut read] = [0; 2];
        let mut bytes = 0;
        while printed < random_terms {
            let book = good_book(&mut random);
            let program = check(&book).map_err(|refusal| format!("refused {refusal}"))?;
            let mut prints = Prints::new(&book, &program)?;
            for _ in 0..TERMS_OF_A_BOOK.min(program.terms.len()) {
                let term = any_term(&mut random, program.terms.len());
                let [tag, indent] = [random.pick(&TAGS), random.pick(&INDENTS)];
                for newlines in [ONE_LINE, random.pick(&FLAGS)] {
                    let call = Print {
                        book: &book,
                        term,
                        tag,
                        newlines,
                        indent,
                    };
                    let longer = random.below(LONGER);
                    let length = call.length(&program);
                    call.compare_around(length, longer, &mut met, &mut prints)?;
                    if length <= LONGEST {
                        bytes += length;
                        let layout = &mut shapes[usize::from(newlines != 0)];
                        visit(&program, term as usize, &mut |shape| layout.add(shape));
                    }
                }
                printed += 1;
            }
            read += prints.read;
        }
        for layout in shapes {
            layout.all_of(&SHAPES)?;
        }
        let said = met.all_of(&[0, 10])?;
        Ok(format!(
            "{printed} terms, {bytes} bytes of text, {read} read strictly, {said}"
        ))
    });
    let refused_calls = tally.share(REFUSED_CALLS);
    tally.group("print, refused calls", || {
        let mut met = Met::default();
        let mut random = Random::new(SEED);
        for _ in 0..refused_calls {
            let book = any_book(&mut random);
            let terms = check(&book).map_or(0, |program| program.terms.len());
            let call = Print {
                book: &book,
                term: any_number(&mut random, terms),
                tag: random.pick(&TAGS),
                newlines: random.pick(&FLAGS),
                indent: random.pick(&INDENTS),
            };
            let room = random.pick(&SHORT_ROOMS);
            call.compare(room, &random_scratch(&mut random), &mut met)?;
        }
        met.all_of(&ON_A_BOOK)
    });
}

/// A chain of nodes as deep as it can be, each with a trace but for some.
fn traced_chain() -> Vec<u8> {
    let mut m = chain(MOST_DEPTH);
    for (k, trace) in ["", "a", "two words"].into_iter().cycle().enumerate() {
        let Some(context) = m.contexts.get(k).copied() else {
            break;
        };
        let name = m.name(trace);
        let [parent, term, _] = context;
        m.contexts[k] = [parent, term, if k % 5 == 4 { 0 } else { name + 1 }];
    }
    m.book()
}

fn trace_groups(tally: &mut Tally) {
    tally.group("trace, every node and every buffer", || {
        let mut met = Met::default();
        let mut books: Vec<Vec<u8>> = good_books().iter().map(|m| m.book()).collect();
        books.push(traced_chain());
        for book in &books {
            let program = check(book).map_err(|refusal| format!("refused {refusal}"))?;
            let nodes = program.nodes().len() as u32;
            for node in [0, 1, 2, nodes / 2, nodes, nodes + 1, u32::MAX] {
                let mut whole = vec![0; LONGEST as usize];
                let mut scratch = [0; SCRATCH_SIZE];
                let length = leskofar_reference::trace(book, &mut scratch, node, &mut whole);
                let length = length.unwrap_or(0);
                for room in [0, 1, length.saturating_sub(1), length, length + LONGER] {
                    compare_trace(book, node, room, &LEAST, &mut met)?;
                }
            }
        }
        met.all_of(&[0, 7, 10])
    });
    let random_nodes = tally.share(RANDOM_NODES);
    tally.group("trace, random nodes", || {
        let mut met = Met::default();
        let mut random = Random::new(SEED);
        for _ in 0..random_nodes {
            let book = any_book(&mut random);
            let nodes = check(&book).map_or(0, |program| program.nodes().len());
            let node = any_number(&mut random, nodes);
            let room = random.pick(&SHORT_ROOMS) + random.below(LONGER);
            let scratch = random_scratch(&mut random);
            compare_trace(&book, node, room, &scratch, &mut met)?;
        }
        met.all_of(&ON_A_BOOK)
    });
}

fn operator_groups(tally: &mut Tally) {
    tally.group("operator, every code and buffer", || {
        let mut met = Met::default();
        let codes = (0..=NAMES.len() as u32 + LONGER as u32).chain(FAR_CODES);
        let longest = NAMES.iter().map(|name| name.len()).max().unwrap_or(0);
        for code in codes {
            for room in 0..=longest + 1 {
                let theirs = left(room, &[], |_, text| {
                    told(leskofar_reference::operator(u64::from(code), text))
                });
                let ours = left(room, &[], |_, text| library::operator(code, text));
                compare(&mut met, theirs, ours, &[], || {
                    format!("operator {code}, buffer {room}")
                })?;
            }
        }
        met.all_of(&[0, 10, 11])
    });
}

pub fn run(tally: &mut Tally) {
    print_groups(tally);
    trace_groups(tally);
    operator_groups(tally);
}
