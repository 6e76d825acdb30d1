//! Lists of calls whose book grows between them, also while a reply and while
//! a model is owed: the calls against the reference, their text against the
//! newest book, and calls on the old book against the same on the new.

use crate::calls::{Call, Measure, OK};
use crate::lists::{on_book, List};
use crate::made_growths::{each_call, record, term, trace_point};
use crate::seen::{REFUSALS, RESULTS};
use crate::sessions::END;
use crate::tally::Tally;
use crate::writer_books::growing_book;
use crate::writer_call::{Growth, LARGEST_BOOK};
use crate::writer_events::{Events, MODEL_OWED, NOTHING_OWED, REPLY_OWED, SHAPES};
use crate::writer_met::End;
use leskofar_reference::book::{kind, INT};
use leskofar_reference::fresh_image;
use leskofar_reference::maker::{sample, Maker, Sample};
use leskofar_reference::random::Random;
use leskofar_reference::sane_books::sane_book;

const SEED: u64 = 0x6576_656E;
/// Random lists.
const LISTS: usize = 12_000;
const SANE_LISTS: usize = 2_000;
/// More than the texts and reasons of worked lists have.
const ROOM: usize = 1 << 12;

/// What is sent at the root for the sample's goal.
const ASK: &str = "(push 1)
(declare-fun f (Int) Int)
(assert (forall ((z Int)) (= (f z) z)))
(declare-fun y () Int)
(push 1)
(assert (not (< 0 (f y))))
(check-sat)
";
const GET_MODEL: &str = "(get-model)
";
/// What is sent for a recorded term below a trace point.
const TO_THE_NEW_NODE: &str = "(push 1)
(declare-fun probe%0 () Bool)
(assert (= probe%0 true))
(push 1)
(declare-fun probe%1 () Int)
(assert (= probe%1 7))
";
/// What is sent for a node with a literal, and for a goal of the same name.
const TO_A_LITERAL: &str = "(push 1)
(declare-sort T 0)
(declare-fun |red:T| () T)
(assert |red:T|)
";
const ASK_RED: &str = "(push 1)
(push 1)
(assert (not |red:T|))
(check-sat)
";
const ASK_BLUE: &str = "(push 1)
(declare-fun |blue:T| () T)
(push 1)
(assert (not |blue:T|))
(check-sat)
";

/// A call that is to be accepted with a text.
fn step(events: &mut Events, list: &mut List, call: Call, text: &str) -> Result<(), String> {
    let left = list.step(&call, ROOM, ROOM, &mut events.calls)?;
    if left.accepted() && left.text() == text.as_bytes() {
        return Ok(());
    }
    let sent = left.text().escape_ascii();
    Err(format!("{:?}, {sent}, of {call:?}", left.answer))
}

/// A growth that is to be accepted.
fn grow(events: &mut Events, list: &mut List, growth: &Growth) -> Result<u32, String> {
    let number = events.grow(list, growth, LARGEST_BOOK)?;
    number.ok_or_else(|| format!("refused: {growth:?}"))
}

/// A call of the writer with nothing owed, a reply owed and a model owed, and
/// then to a node that came while the model was owed.
fn grow_while_owed(at: usize, events: &mut Events) -> Result<(), String> {
    let Sample { maker: mut m, goal } = sample();
    let free = [(); 6].map(|()| m.boolean(true));
    let growths = [0, 2, 4].map(|k| each_call(free[k], b"t")[at].clone());
    on_book(&m, |list| {
        grow(events, list, &growths[0])?;
        step(events, list, Call::Ask { node: 0, goal }, ASK)?;
        grow(events, list, &growths[1])?;
        step(events, list, Call::reply(OK, b"sat"), GET_MODEL)?;
        grow(events, list, &growths[2])?;
        let point = grow(events, list, &trace_point(0, b"start"))?;
        let seven = term([kind::INTEGER, 7, 0, 0, 0, 0, 0], [&[], &[]]);
        let seven = grow(events, list, &seven)?;
        let node = grow(events, list, &record(point, seven, INT, None))?;
        step(events, list, Call::model(b"sat", None), END)?;
        step(events, list, Call::Move { node }, TO_THE_NEW_NODE)
    })
}

fn worked_groups(tally: &mut Tally) {
    tally.group("writer, growth while a reply and a model is owed", || {
        let mut events = Events::default();
        for at in 0..each_call(0, b"t").len() {
            grow_while_owed(at, &mut events)?;
        }
        events.ends.all_of(&End::accepted())?;
        events.shapes.only(&[NOTHING_OWED, REPLY_OWED, MODEL_OWED])
    });
    // A literal that is appended later has no level of its own where its name
    // is declared.
    tally.group("writer, literals of a name that is declared", || {
        let mut events = Events::default();
        let mut m = Maker::default();
        let typ = m.user_type("T");
        let [red, blue] = ["red", "blue"].map(|text| m.name(text));
        let literal = m.term(kind::CUSTOM_LITERAL, [red, typ]);
        let node = m.context(0, literal);
        on_book(&m, |list| {
            step(&mut events, list, Call::Move { node }, TO_A_LITERAL)?;
            for (name, text) in [(red, ASK_RED), (blue, ASK_BLUE)] {
                let literal = term([kind::CUSTOM_LITERAL, name, typ, 0, 0, 0, 0], [&[], &[]]);
                let goal = grow(&mut events, list, &literal)?;
                step(&mut events, list, Call::Ask { node, goal }, text)?;
                grow(&mut events, list, &literal)?;
                step(&mut events, list, Call::reply(OK, b"unsat"), END)?;
            }
            Ok(())
        })?;
        events.shapes.only(&[NOTHING_OWED, REPLY_OWED])
    });
}

/// Random lists on books of a sort.
fn random_lists(lists: usize, book: fn(&mut Random) -> Maker) -> Result<Events, String> {
    let mut events = Events::default();
    let mut measure = Measure::new();
    let mut random = Random::new(SEED);
    let mut other = fresh_image().to_vec();
    for _ in 0..lists {
        let m = book(&mut random);
        other = on_book(&m, |list| {
            events.random_list(&mut random, list, &other, &mut measure)?;
            Ok(list.image().to_vec())
        })?;
    }
    Ok(events)
}

fn random_groups(tally: &mut Tally) {
    let lists = tally.share(LISTS);
    tally.group("writer, random lists of calls and growths", || {
        let events = random_lists(lists, growing_book)?;
        events.ends.all_of(&End::accepted())?;
        for ((call, numbers), refusals) in REFUSALS.iter().zip(&events.calls.refusals) {
            let all = refusals.all_of(numbers);
            all.map_err(|what| format!("{call}: {what}"))?;
        }
        let results = events.calls.results.all_of(&RESULTS)?;
        let shapes = events.shapes.only(&SHAPES)?;
        let levels = events.calls.levels;
        let looked = events.calls.looked.said()?;
        Ok(format!(
            "{lists} lists, levels held {levels} times, {looked}, {shapes}, accepted: {results}"
        ))
    });
    let lists = tally.share(SANE_LISTS);
    tally.group("writer, random lists with sane names", || {
        let events = random_lists(lists, sane_book)?;
        let shapes = events.shapes.only(&SHAPES)?;
        let read = events.calls.read_strictly()?;
        let looked = events.calls.looked.said()?;
        Ok(format!("{lists} lists, {read}, {looked}, {shapes}"))
    });
}

pub fn run(tally: &mut Tally) {
    worked_groups(tally);
    random_groups(tally);
}
