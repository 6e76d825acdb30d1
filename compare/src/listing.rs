//! Listings against the reference: the answer, every byte of the text, every
//! byte behind it, and every scratch byte.

use crate::library;
use crate::listing_limits;
use crate::listing_shapes::{visit_listing, LISTING_SHAPES};
use crate::made_books::{chain, faulty_books, full, good_books};
use crate::made_rules::missing_axiom;
use crate::made_terms::borders;
use crate::printed::{compare, left, rooms_around, told, Left, LONGER, ON_A_BOOK, SHORT_ROOMS};
use crate::random_inputs::{any_book, any_number, any_term, good_book};
use crate::scratch_bytes::{random_scratch, LEAST};
use crate::session_books::chain_book;
use crate::shapes::SHAPES;
use crate::tally::{Met, Tally};
use leskofar_reference::book_test::{check, MOST_DEPTH, SCRATCH_SIZE};
use leskofar_reference::listing::print_proof_obligation;
use leskofar_reference::maker::{sample, small, Maker};
use leskofar_reference::program::Program;
use leskofar_reference::random::Random;
use leskofar_reference::refusal::MISSING_AXIOM;
use leskofar_reference::sane_books::DEEP;
use leskofar_reference::sink::Sink;
use leskofar_reference::{fresh_image, move_to};

const SEED: u64 = 0x6C69_7374;
/// Random listings, each of a node and a goal.
const RANDOM_LISTINGS: usize = 100_000;
/// Listings of one random book.
const LISTINGS_OF_A_BOOK: usize = 8;
/// Random calls on bad books, or for nodes and goals that are not there.
const REFUSED_CALLS: usize = 80_000;
/// Random books that are looked through for a move that lacks an axiom.
const BOOKS_WITH_AXIOMS: usize = 4_000;
/// A buffer that some texts fit and others do not.
const SOME_ROOM: usize = 200;

/// A call of listing but for its buffers.
#[derive(Clone, Copy, Debug)]
pub struct Listing<'b> {
    pub book: &'b [u8],
    pub node: u32,
    pub goal: u32,
}

impl Listing<'_> {
    /// Gives what the library left.
    pub fn compare(self, room: usize, scratch: &[u8], met: &mut Met) -> Result<Left, String> {
        let Listing { book, node, goal } = self;
        let theirs = left(room, scratch, |scratch, text| {
            told(leskofar_reference::listing(book, scratch, node, goal, text))
        });
        let ours = left(room, scratch, |scratch, text| {
            library::listing(book, scratch, node, goal, text)
        });
        compare(met, theirs, ours, scratch, || {
            format!("buffer {room}, {self:?}")
        })
    }

    fn is_in(self, program: &Program) -> bool {
        program.has_node(self.node) && program.has_term(self.goal)
    }

    /// The length of the text, as the reference measures it.
    pub fn length(self, program: &Program) -> u64 {
        let mut sink = Sink::new(0);
        print_proof_obligation(program, self.node as usize, self.goal as usize, &mut sink);
        sink.length()
    }

    /// With buffers exactly long enough, one byte less, empty and longer; with
    /// short ones where there is no such node or goal. Gives the length.
    fn compare_around(
        self,
        program: &Program,
        longer: usize,
        met: &mut Met,
    ) -> Result<u64, String> {
        let (length, rooms) = if self.is_in(program) {
            let length = self.length(program);
            (length, rooms_around(length, longer))
        } else {
            (0, SHORT_ROOMS.to_vec())
        };
        for room in rooms {
            self.compare(room, &LEAST, met)?;
        }
        Ok(length)
    }
}

pub fn checked(book: &[u8]) -> Result<Program<'_>, String> {
    check(book).map_err(|refusal| format!("refused {refusal}"))
}

/// Every choice of some nodes and some goals.
pub fn compare_each(
    m: &Maker,
    nodes: impl IntoIterator<Item = u32>,
    goals: impl IntoIterator<Item = u32> + Clone,
    met: &mut Met,
) -> Result<(), String> {
    let book = &m.book();
    let program = checked(book)?;
    for node in nodes {
        for goal in goals.clone() {
            let call = Listing { book, node, goal };
            call.compare_around(&program, 0, met)?;
        }
    }
    Ok(())
}

fn small_groups(tally: &mut Tally) {
    tally.group("listing, every node and goal", || {
        let mut met = Met::default();
        for m in [borders(), full(), sample().maker, small().maker] {
            let [nodes, goals] = [m.contexts.len(), m.terms.len()].map(|count| count as u32);
            compare_each(&m, 0..=nodes, 0..goals, &mut met)?;
        }
        met.only(&[0, 10])
    });
    tally.group("listing, every buffer up to the text's length", || {
        let mut met = Met::default();
        let [sample, full] = [sample().maker, full()].map(|m| m.book());
        for book in [&sample, &full] {
            let program = checked(book)?;
            for node in 0..=program.nodes().len() as u32 {
                for goal in 0..program.terms.len() as u32 {
                    let call = Listing { book, node, goal };
                    for room in 0..=call.length(&program) as usize + LONGER {
                        call.compare(room, &LEAST, &mut met)?;
                    }
                }
            }
        }
        met.only(&[0, 10])
    });
    tally.group("listing, nodes and goals at and behind the last", || {
        let mut met = Met::default();
        let mut books = good_books();
        books.extend([chain(1), chain(MOST_DEPTH)]);
        for m in &books {
            let [nodes, terms] = [m.contexts.len(), m.terms.len()].map(|count| count as u32);
            let goals = [0, terms.saturating_sub(1), terms, terms + 1, u32::MAX];
            let nodes = [0, 1, nodes / 2, nodes, nodes + 1, u32::MAX];
            compare_each(m, nodes, goals, &mut met)?;
        }
        met.only(&[0, 7, 10])
    });
}

/// Whether a fresh session's move there is refused for an axiom.
fn lacks_an_axiom(book: &[u8], node: u32) -> bool {
    let mut scratch = [0; SCRATCH_SIZE];
    let moved = move_to(book, &mut scratch, &mut fresh_image(), node, &mut []);
    moved == Err(MISSING_AXIOM)
}

fn missing_axiom_group(tally: &mut Tally) {
    let books = tally.share(BOOKS_WITH_AXIOMS);
    tally.group("listing, where a move lacks an axiom", || {
        let mut met = Met::default();
        let mut random = Random::new(SEED);
        let made = [missing_axiom(), full()].map(|m| m.book());
        let made = made.into_iter();
        for book in made.chain((0..books).map(|_| good_book(&mut random))) {
            let program = checked(&book)?;
            let nodes = 1..=program.nodes().len() as u32;
            for node in nodes.filter(|node| lacks_an_axiom(&book, *node)) {
                let call = Listing {
                    book: &book,
                    node,
                    goal: program.terms.len() as u32 - 1,
                };
                call.compare_around(&program, 0, &mut met)?;
            }
        }
        met.only(&[0, 10])
    });
}

fn random_groups(tally: &mut Tally) {
    let listings = tally.share(RANDOM_LISTINGS);
    tally.group("listing, random nodes and goals", || {
        let mut met = Met::default();
        let mut shapes = Met::default();
        let mut random = Random::new(SEED);
        let mut listed = 0;
        let mut bytes = 0;
        while listed < listings {
            let book = if random.one_in(DEEP) {
                chain_book(&mut random, MOST_DEPTH).book()
            } else {
                good_book(&mut random)
            };
            let program = checked(&book)?;
            let last = program.nodes().len();
            for _ in 0..LISTINGS_OF_A_BOOK.min(program.terms.len()) {
                let any = random.up_to(last);
                let call = Listing {
                    book: &book,
                    node: random.pick(&[last, any, any, any]) as u32,
                    goal: any_term(&mut random, program.terms.len()),
                };
                bytes += call.compare_around(&program, random.below(LONGER), &mut met)?;
                let [node, goal] = [call.node, call.goal].map(|number| number as usize);
                visit_listing(&program, node, goal, &mut |shape| shapes.add(shape));
                listed += 1;
            }
        }
        shapes.all_of(&SHAPES)?;
        shapes.all_of(&LISTING_SHAPES)?;
        let said = met.only(&[0, 10])?;
        Ok(format!("{listed} listings, {bytes} bytes of text, {said}"))
    });
    let refused_calls = tally.share(REFUSED_CALLS);
    tally.group("listing, refused calls", || {
        let mut met = Met::default();
        let mut random = Random::new(SEED);
        for _ in 0..refused_calls {
            let book = any_book(&mut random);
            let counts = check(&book).map_or([0; 2], |p| [p.nodes().len(), p.terms.len()]);
            let [node, goal] = counts.map(|count| any_number(&mut random, count));
            let call = Listing {
                book: &book,
                node,
                goal,
            };
            let room = random.up_to(SOME_ROOM);
            call.compare(room, &random_scratch(&mut random), &mut met)?;
        }
        met.all_of(&ON_A_BOOK)
    });
    tally.group("listing, every refusal with every later one", || {
        let mut met = Met::default();
        for book in &faulty_books() {
            for scratch in [&LEAST[1..], &LEAST] {
                for [node, goal] in [[0, 0], [0, u32::MAX], [u32::MAX, 0], [u32::MAX; 2]] {
                    for room in [0, SOME_ROOM] {
                        Listing { book, node, goal }.compare(room, scratch, &mut met)?;
                    }
                }
            }
        }
        met.only(&ON_A_BOOK)
    });
}

pub fn run(tally: &mut Tally) {
    small_groups(tally);
    listing_limits::run(tally);
    missing_axiom_group(tally);
    random_groups(tally);
}
