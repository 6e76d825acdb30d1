//! Every symbol declared once: lists of calls on books that print apart, at
//! every moment of which no live assertion has a stranger, and books with one
//! clash, of which each is found.

use crate::calls::{Call, Measure};
use crate::clashes::{Clash, CLASHES};
use crate::lists::on_book;
use crate::seen::{Seen, RESULTS};
use crate::session_books::session_book;
use crate::sessions::random_list;
use crate::stranger_shapes::SHAPES;
use crate::tally::{Met, Tally};
use crate::writer_events::{Events, SHAPES as GROWTHS};
use leskofar_reference::apart_books::apart_book;
use leskofar_reference::fresh_image;
use leskofar_reference::maker::Maker;
use leskofar_reference::random::Random;
use leskofar_reference::random_books::{random_book, Counts};
use leskofar_reference::sane_books::sane_book;
use leskofar_reference::told_apart::does_print_apart;

const SEED: u64 = 0x7374_726E;
/// Random lists, those whose book grows, and books with each clash.
const LISTS: usize = 4_000;
const GROWING_LISTS: usize = 2_000;
const CLASHING_BOOKS: usize = 200;
/// Of so many lists whose book grows one may end with a book that is not told
/// apart.
const ONE_SPOILT_OF: usize = 10;
/// The sizes of books that are random in everything.
const SIZES: [usize; 3] = [2, 4, 8];

/// Where the two sides of a clash stand.
const TOGETHER: &str = "in one assertion";
const BELOW: &str = "at a node and below it";
const ASKED: &str = "at a node and in a goal";
const PLACES: [&str; 3] = [TOGETHER, BELOW, ASKED];

/// A random book: with good sorts, with few symbols in every entanglement, or
/// random in everything.
fn any_book(random: &mut Random) -> Maker {
    match random.below(3) {
        0 => sane_book(random),
        1 => session_book(random),
        _ => {
            let size = random.pick(&SIZES);
            let counts = Counts::random(random, size);
            random_book(random, counts)
        }
    }
}

fn random_groups(tally: &mut Tally) {
    let lists = tally.share(LISTS);
    tally.group("strangers, random lists of calls", || {
        let mut seen = Seen::default();
        let mut measure = Measure::new();
        let mut random = Random::new(SEED);
        let mut other = fresh_image().to_vec();
        for _ in 0..lists {
            let m = apart_book(&mut random, any_book);
            other = random_list(&mut random, &m, &other, &mut measure, &mut seen)?;
        }
        seen.results.all_of(&RESULTS)?;
        let looked = seen.looked.said()?;
        let shapes = seen.looked.shapes.all_of(&SHAPES)?;
        Ok(format!("{lists} lists, {looked}, {shapes}"))
    });
    let lists = tally.share(GROWING_LISTS);
    tally.group("strangers, random lists of calls and growths", || {
        let mut events = Events::default();
        let mut measure = Measure::new();
        let mut random = Random::new(SEED);
        let mut other = fresh_image().to_vec();
        let mut apart = 0;
        for _ in 0..lists {
            let m = apart_book(&mut random, any_book);
            other = on_book(&m, |list| {
                events.random_list(&mut random, list, &other, &mut measure)?;
                apart += usize::from(list.prints_apart());
                Ok(list.image().to_vec())
            })?;
        }
        let growths = events.shapes.only(&GROWTHS)?;
        let looked = events.calls.looked.said()?;
        events.calls.looked.shapes.all_of(&SHAPES)?;
        if (lists - apart) * ONE_SPOILT_OF > lists {
            return Err(format!("only {apart} of {lists} still print apart"));
        }
        Ok(format!(
            "{lists} lists, {apart} print apart at the end, {looked}, {growths}"
        ))
    });
}

/// A book that prints apart but for a clash, and a call that makes both sides
/// live at once.
fn clashing_book(random: &mut Random, clash: &Clash, place: &str) -> (Maker, Call) {
    let mut m = apart_book(random, any_book);
    let parent = random.up_to(m.contexts.len()) as u32;
    let [first, second] = clash.sides;
    let first = first(&mut m);
    if !does_print_apart(&m.book()) {
        return clashing_book(random, clash, place);
    }
    let second = second(&mut m);
    let call = match place {
        TOGETHER => {
            let both = m.built_in("=", &[first, second]);
            let node = m.context(parent, both);
            Call::Move { node }
        }
        BELOW => {
            let above = m.context(parent, first);
            let node = m.context(above, second);
            Call::Move { node }
        }
        _ => Call::Ask {
            node: m.context(parent, first),
            goal: second,
        },
    };
    (m, call)
}

/// Books with a clash, each of whose breaches is of the right kind once.
fn clash_group(tally: &mut Tally, clash: &Clash) {
    let books = tally.share(CLASHING_BOOKS);
    tally.group(&format!("strangers, {}", clash.name), || {
        let mut seen = Seen::default();
        let mut measure = Measure::new();
        let mut random = Random::new(SEED);
        let mut met = Met::default();
        for _ in 0..books {
            let place = random.pick(&PLACES);
            let (m, call) = clashing_book(&mut random, clash, place);
            if does_print_apart(&m.book()) {
                return Err(format!("prints apart, of {m:?}"));
            }
            on_book(&m, |list| {
                let (text, reason) = measure.lengths(&call, list.book(), list.image());
                // An axiom may be missing on the way.
                if !list.step(&call, text, reason, &mut seen)?.accepted() {
                    return Ok(());
                }
                met.add(place);
                let breaches = list.breaches()?;
                if breaches.iter().any(clash.is_breach) {
                    Ok(())
                } else {
                    Err(format!("{breaches:?} {place}, of {m:?}"))
                }
            })?;
        }
        met.all_of(&PLACES)
    });
}

pub fn run(tally: &mut Tally) {
    random_groups(tally);
    for clash in &CLASHES {
        clash_group(tally, clash);
    }
}
