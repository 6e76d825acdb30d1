//! Events of a list whose book grows: what they met, a growth between two
//! calls, and a call on the old book and on the new one.

use crate::calls::{Call, Given, Measure};
use crate::lists::List;
use crate::random_calls::{random_call, room as text_room};
use crate::scratch_bytes::LEAST;
use crate::seen::Seen;
use crate::strict::reading_of;
use crate::tally::Met;
use crate::writer::{compare, room};
use crate::writer_call::{Given as GrowthGiven, Growth};
use crate::writer_met::Ends;
use crate::writer_random::Stock;
use leskofar_reference::image::Owed;
use leskofar_reference::maker::Maker;
use leskofar_reference::random::{Random, AT_TIMES, OFTEN};
use leskofar_reference::told_apart::does_print_apart;

/// The most events of a list.
const EVENTS: usize = 24;
/// How often a growth that leaves no sane names is drawn anew.
const DRAWS: usize = 20;

pub const NOTHING_OWED: &str = "grown, nothing owed";
pub const REPLY_OWED: &str = "grown while a reply is owed";
pub const MODEL_OWED: &str = "grown while a model is owed";
const REFUSED: &str = "growth refused";
const AT_A_NEW_NODE: &str = "at a new node";
const ABOUT_A_NEW_TERM: &str = "about a new term";
const PROBED: &str = "a recorded constant declared";
const ACCEPTED_ON_BOTH: &str = "accepted on both books";
const REFUSED_ON_BOTH: &str = "refused on both books";
pub const SHAPES: [&str; 9] = [
    NOTHING_OWED,
    REPLY_OWED,
    MODEL_OWED,
    REFUSED,
    AT_A_NEW_NODE,
    ABOUT_A_NEW_TERM,
    PROBED,
    ACCEPTED_ON_BOTH,
    REFUSED_ON_BOTH,
];

/// What lists of events met.
#[derive(Default)]
pub struct Events {
    pub calls: Seen,
    pub ends: Ends,
    pub shapes: Met<&'static str>,
}

impl Events {
    /// A growth between two calls: the number that is answered, or none.
    pub fn grow(
        &mut self,
        list: &mut List,
        growth: &Growth,
        room: usize,
    ) -> Result<Option<u32>, String> {
        let given = GrowthGiven {
            book: list.book(),
            scratch: &LEAST,
            room,
        };
        let grown = compare(growth, &given, &mut self.ends)?;
        let Some(book) = grown.book() else {
            self.shapes.add(REFUSED);
            return Ok(None);
        };
        self.shapes.add(match list.owed() {
            Owed::Nothing => NOTHING_OWED,
            Owed::Reply => REPLY_OWED,
            Owed::Model => MODEL_OWED,
        });
        list.go_on(book, &mut self.calls)
            .map_err(|what| format!("{what} after {growth:?}, of {:?}", list.book()))?;
        Ok(Some(grown.answer.number))
    }

    /// A random call within the old book, with the list's session, on both.
    fn compare_both(
        &mut self,
        random: &mut Random,
        list: &List,
        old: &Maker,
        measure: &mut Measure,
    ) -> Result<(), String> {
        let call = random_call(random, old, list.owed());
        if !is_within(&call, old) {
            return Ok(());
        }
        let old = old.book();
        let (text, reason) = measure.lengths(&call, &old, list.image());
        let [text, reason] = [text, reason].map(|length| text_room(random, length));
        let on = |book| {
            call.compare(&Given {
                book,
                image: list.image(),
                scratch: &LEAST,
                text,
                reason,
            })
        };
        let [before, after] = [on(&old)?, on(list.book())?];
        if before != after {
            let [before, after] = [before.answer, after.answer];
            let book = list.book();
            return Err(format!(
                "{before:?}, then {after:?}, of {call:?} on {book:?}"
            ));
        }
        let is_accepted = before.accepted();
        self.shapes.add(if is_accepted {
            ACCEPTED_ON_BOTH
        } else {
            REFUSED_ON_BOTH
        });
        Ok(())
    }

    /// A list of random events.
    pub fn random_list(
        &mut self,
        random: &mut Random,
        list: &mut List,
        other: &[u8],
        measure: &mut Measure,
    ) -> Result<(), String> {
        let first = list.maker().clone();
        for _ in 0..=random.below(EVENTS) {
            if random.one_in(OFTEN) {
                let old = list.maker().clone();
                let growth = random_growth(random, list);
                let room = room(random, growth.length(list.book()));
                let number = self.grow(list, &growth, room)?;
                if number.is_some() && random.one_in(AT_TIMES) {
                    self.compare_both(random, list, &old, measure)?;
                }
            } else {
                list.random_step(random, other, measure, &mut self.calls)?;
                self.visit(list, &first);
            }
        }
        Ok(())
    }

    /// What of the present node and goal the first book did not have.
    fn visit(&mut self, list: &List, first: &Maker) {
        let is_new_term = |goal: u32| goal as usize >= first.terms.len();
        let shapes = [
            (AT_A_NEW_NODE, list.node() as usize > first.contexts.len()),
            (ABOUT_A_NEW_TERM, list.goal().is_some_and(is_new_term)),
            (PROBED, list.has_live(b"(declare-fun probe%")),
        ];
        for (shape, is_met) in shapes {
            if is_met {
                self.shapes.add(shape);
            }
        }
    }
}

/// Whether the node and goal of a call are in a book.
fn is_within(call: &Call, m: &Maker) -> bool {
    let has_node = |node: u32| node as usize <= m.contexts.len();
    match call {
        Call::Move { node } => has_node(*node),
        Call::Ask { node, goal } => has_node(*node) && (*goal as usize) < m.terms.len(),
        Call::Reply { .. } | Call::Model { .. } => true,
    }
}

/// A growth; on books with sane names, and on those that print apart, one
/// that leaves them so, if it is found.
fn random_growth(random: &mut Random, list: &List) -> Growth {
    let stock = Stock::of(list.maker());
    let mut growth = stock.growth(random);
    let reading = reading_of(list.book());
    if reading.is_some() || list.prints_apart() {
        let is_spoilt = |book: &[u8]| {
            reading.is_some() && reading_of(book) != reading
                || list.prints_apart() && !does_print_apart(book)
        };
        let spoils = |growth: &Growth| {
            let new_book = growth.new_book(list.book());
            new_book.is_some_and(|book| is_spoilt(&book))
        };
        for _ in 0..DRAWS {
            if spoils(&growth) {
                growth = stock.growth(random);
            }
        }
    }
    growth
}
