//! The book test's marks: books of 1,024 terms with a second reference at each
//! of them, and with that reference moved beside it.

use crate::book_call::compare;
use crate::forests::{flat, mixed, nested};
use crate::referring::{pairs, Pair, PARENTS, ROOT, SOURCES, TERMS};
use crate::tally::{Met, Tally};
use leskofar_reference::book::INT;
use leskofar_reference::maker::Maker;
use leskofar_reference::random::Random;
use leskofar_reference::refusal::{FOREST, SCRATCH_SHORT};
use std::collections::BTreeSet;

const SEED: u64 = 0x7265_6665;
/// The least scratch, one that is longer, and what hosts lent before.
const SCRATCHES: [usize; 3] = [128, 129, 1_024];
const TOO_SHORT: usize = 127;
/// Terms whose marks stand in one byte.
const IN_A_BYTE: u32 = 8;
/// Terms at the edges of the first bytes and of the last one.
const EDGES: [u32; 7] = [0, 7, 8, 1_015, 1_016, 1_022, 1_023];

/// What scratches hold, and what was answered.
struct References {
    random: Random,
    met: Met,
}

impl References {
    fn new() -> References {
        References {
            random: Random::new(SEED),
            met: Met::default(),
        }
    }

    /// With a scratch of this length.
    fn expect(&mut self, book: &[u8], length: usize, known: u32) -> Result<(), String> {
        let answer = compare(book, &self.random.bytes(length), &mut self.met)?;
        if answer == known {
            Ok(())
        } else {
            Err(format!("answer {answer}, known {known}, of {book:?}"))
        }
    }

    fn expect_with_each(&mut self, book: &[u8], known: u32) -> Result<(), String> {
        SCRATCHES
            .into_iter()
            .try_for_each(|length| self.expect(book, length, known))
    }

    /// Two references to a term, and one of them moved to each of the others.
    fn expect_at(&mut self, pair: Pair, t: u32) -> Result<(), String> {
        self.expect_with_each(&pair.book([t, t]), FOREST)?;
        let lengths = SCRATCHES.into_iter().cycle();
        for (other, length) in others(pair, t).into_iter().zip(lengths) {
            self.expect(&pair.book([t, other]), length, 0)?;
        }
        Ok(())
    }
}

/// Leaves whose marks stand in the byte of a term's mark or beside it, and those
/// whose numbers differ by one bit.
fn others(pair: Pair, t: u32) -> BTreeSet<u32> {
    let first = t - t % IN_A_BYTE;
    let in_its_byte = first..first + IN_A_BYTE;
    let before = [1, IN_A_BYTE].map(|by| t.saturating_sub(by));
    let behind = [1, IN_A_BYTE].map(|by| t + by);
    let bits = (0..TERMS.ilog2()).map(|bit| t ^ 1 << bit);
    let all = in_its_byte.chain(before).chain(behind).chain(bits);
    all.filter(|other| *other != t && (*other as usize) < pair.leaves())
        .collect()
}

fn twice_groups(tally: &mut Tally) {
    tally.group("references, a second one at each term", || {
        let mut references = References::new();
        let pairs = pairs();
        for t in 0..TERMS {
            // Another pair for each. The last term has none behind it that could
            // refer to it; the last but one has one.
            let mut next = pairs.iter().cycle().skip(t);
            let pair = next.find(|pair| t < pair.leaves()).expect("two contexts");
            references.expect_at(*pair, t as u32)?;
        }
        references.met.only(&[0, FOREST])
    });
    tally.group("references, every pair of them at the edges", || {
        let mut references = References::new();
        let mut names = Met::default();
        for t in EDGES {
            for pair in pairs() {
                if (t as usize) < pair.leaves() {
                    references.expect_at(pair, t)?;
                    pair.names().into_iter().for_each(|name| names.add(name));
                }
            }
        }
        names.all_of(&SOURCES.map(|source| source.name))?;
        names.all_of(&PARENTS.map(|parent| parent.name))?;
        references.met.only(&[0, FOREST])
    });
}

/// Where every term is referred to, any other reference is a second one: by an
/// axiom, by a context, or in place of an argument. The marks of the others in
/// its byte are set in between.
fn second_in(forest: &Maker, t: u32) -> Vec<Maker> {
    let mut books = vec![forest.clone(), forest.clone()];
    books[0].axiom(Some(t), &[]);
    books[1].context(ROOT, t);
    let arguments = forest.lists.len();
    for by in (1..IN_A_BYTE).filter(|_| (t as usize) < arguments) {
        let mut m = forest.clone();
        m.lists[t as usize] = t ^ by;
        books.push(m);
    }
    books
}

fn forest_groups(tally: &mut Tally) {
    tally.group("references, just one to every term", || {
        let mut references = References::new();
        let made = [("flat", flat()), ("mixed", mixed())];
        for (name, m) in made.into_iter().chain(nested()) {
            let terms = m.terms.len();
            if terms != TERMS {
                return Err(format!("{name}: {terms} terms"));
            }
            references
                .expect_with_each(&m.book(), 0)
                .map_err(|what| format!("{name}: {what}"))?;
        }
        references.met.only(&[0])
    });
    tally.group("references, a second one where all have one", || {
        let mut references = References::new();
        let forest = flat();
        for (t, length) in (0..TERMS as u32).zip(SCRATCHES.into_iter().cycle()) {
            for m in second_in(&forest, t) {
                references.expect(&m.book(), length, FOREST)?;
            }
        }
        references.met.only(&[FOREST])
    });
    tally.group("references, no terms", || {
        let mut references = References::new();
        let mut without_terms = Maker::default();
        let v = without_terms.constant("c", INT);
        let f = without_terms.function("f", &[INT], INT);
        without_terms.axiom(None, &[f]);
        without_terms.pattern(&[]);
        without_terms.list(&[v]);
        for m in [Maker::default(), without_terms] {
            references.expect_with_each(&m.book(), 0)?;
            references.expect(&m.book(), TOO_SHORT, SCRATCH_SHORT)?;
        }
        references.met.only(&[0, SCRATCH_SHORT])
    });
}

pub fn run(tally: &mut Tally) {
    twice_groups(tally);
    forest_groups(tally);
}
