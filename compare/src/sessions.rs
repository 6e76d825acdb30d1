//! Session calls against the reference, and their text against the book.

use crate::buffers::Fenced;
use crate::calls::{Call, Measure, FAILED, OK};
use crate::damaged_images::manners;
use crate::lists::{on_book, List};
use crate::seen::{Seen, REFUSALS, RESULTS};
use crate::session_books::session_book;
use crate::session_library;
use crate::session_shapes::SESSION_SHAPES;
use crate::shapes::SHAPES;
use crate::tally::{Met, Tally};
use leskofar_reference::fresh_image;
use leskofar_reference::image::{IMAGE_SIZE, NARROW_SIZE};
use leskofar_reference::maker::{sample, Maker};
use leskofar_reference::random::{Random, HARDLY_EVER, OFTEN};
use leskofar_reference::random_books::{random_book, Counts};
use leskofar_reference::refusal::{SESSION, TOO_LONG};
use leskofar_reference::session::UNSAT;

const SEED: u64 = 0x7365_736E;
/// Random lists, and the most calls of one.
const LISTS: usize = 50_000;
const CALLS: usize = 14;
/// The usual sizes of random books, and a rare one.
const SIZES: [usize; 4] = [1, 2, 4, 8];
const LARGE: usize = 60;
const LISTS_AT_LIMITS: usize = 8;

/// The sample's session, with the text of document 01.
const MOVE_2: &str = "(push 1)
(declare-fun x () Int)
(assert (< 0 x))
(push 1)
(declare-fun y () Int)
(declare-fun f (Int) Int)
(assert (forall ((z Int)) (= (f z) z)))
(assert (= y (f x)))
";
const MOVE_3: &str = "(pop 1)
(push 1)
(assert (< x 9))
";
const ASK_3: &str = "(push 1)
(declare-fun f (Int) Int)
(assert (forall ((z Int)) (= (f z) z)))
(declare-fun y () Int)
(push 1)
(assert (not (< 0 (f y))))
(check-sat)
";
pub const END: &str = "(pop 1)
(pop 1)
";
const GET_MODEL: &str = "(get-model)
";

/// Calls with their texts and reasons, each with a buffer that is just long
/// enough after one that is too short by a byte.
pub fn follow(
    list: &mut List,
    calls: &[(Call, &str, &[u8])],
    seen: &mut Seen,
) -> Result<(), String> {
    for (call, text, reason) in calls {
        let [text_room, reason_room] = [text.len(), reason.len()];
        let mut short = vec![];
        short.extend(text_room.checked_sub(1).map(|room| (room, reason_room)));
        short.extend(reason_room.checked_sub(1).map(|room| (text_room, room)));
        for (text, reason) in short {
            let left = list.step(call, text, reason, seen)?;
            if left.answer.refusal != TOO_LONG {
                return Err(format!("{:?} in a short buffer, of {call:?}", left.answer));
            }
        }
        let left = list.step(call, text_room, reason_room, seen)?;
        if left.text() != text.as_bytes() || left.reason() != *reason {
            return Err(format!("another text or reason of {call:?}"));
        }
    }
    Ok(())
}

fn made_groups(tally: &mut Tally) {
    tally.group("session, a fresh image", || {
        let mut met = Met::default();
        let sizes = [IMAGE_SIZE - 1, IMAGE_SIZE, IMAGE_SIZE + 1];
        for length in [0, 1, NARROW_SIZE].into_iter().chain(sizes) {
            let is_image = length == IMAGE_SIZE;
            let mut image = Fenced::new(length);
            let answer = session_library::fresh(image.room());
            met.add(answer);
            let (refusal, left) = if is_image {
                (0, Fenced::holding(&fresh_image()))
            } else {
                (SESSION, Fenced::new(length))
            };
            if answer != refusal || image != left {
                return Err(format!("{answer}, expected {refusal}, of {length} bytes"));
            }
        }
        met.all_of(&[0, SESSION])
    });
    tally.group("session, the worked one of document 01", || {
        let sample = sample();
        let goal = sample.goal;
        let ask_3 = Call::Ask { node: 3, goal };
        let mut seen = Seen::default();
        on_book(&sample.maker, |list| {
            let calls = [
                (Call::Move { node: 2 }, MOVE_2, &b""[..]),
                (Call::Move { node: 3 }, MOVE_3, b""),
                (ask_3.clone(), ASK_3, b""),
                (Call::reply(OK, UNSAT), END, b""),
                // The same question once more, with every other end.
                (ask_3.clone(), ASK_3, b""),
                (Call::reply(FAILED, UNSAT), END, UNSAT),
                (ask_3.clone(), ASK_3, b""),
                (Call::reply(FAILED, b""), END, b""),
                (ask_3.clone(), ASK_3, b""),
                (Call::reply(OK, b"unsat\n"), GET_MODEL, b""),
                (Call::model(b"unsat\n", None), END, b"unsat\n"),
                (ask_3, ASK_3, b""),
                (Call::reply(OK, b""), GET_MODEL, b""),
                (Call::model(b"sat", Some(b"")), END, b"sat\n"),
                (Call::Move { node: 3 }, "", b""),
                (Call::Move { node: 0 }, END, b""),
            ];
            follow(list, &calls, &mut seen)
        })?;
        seen.results.all_of(&RESULTS)
    });
}

/// A list of random calls, and the image that it leaves.
pub fn random_list(
    random: &mut Random,
    m: &Maker,
    other: &[u8],
    measure: &mut Measure,
    seen: &mut Seen,
) -> Result<Vec<u8>, String> {
    on_book(m, |list| {
        for _ in 0..=random.below(CALLS) {
            list.random_step(random, other, measure, seen)?;
        }
        Ok(list.image().to_vec())
    })
}

fn random_groups(tally: &mut Tally) {
    tally.group("session, books at every limit", || {
        let mut seen = Seen::default();
        let mut measure = Measure::new();
        let mut random = Random::new(SEED);
        let mut other = fresh_image().to_vec();
        for _ in 0..LISTS_AT_LIMITS {
            let m = random_book(&mut random, Counts::limits());
            other = random_list(&mut random, &m, &other, &mut measure, &mut seen)?;
        }
        seen.results.all_of(&RESULTS[..2])
    });
    let lists = tally.share(LISTS);
    tally.group("session, random lists of calls", || {
        let mut seen = Seen::default();
        let mut measure = Measure::new();
        let mut random = Random::new(SEED);
        let mut other = fresh_image().to_vec();
        for _ in 0..lists {
            let m = if random.one_in(OFTEN) {
                session_book(&mut random)
            } else {
                let is_large = random.one_in(HARDLY_EVER);
                let size = if is_large { LARGE } else { random.pick(&SIZES) };
                let counts = Counts::random(&mut random, size);
                random_book(&mut random, counts)
            };
            other = random_list(&mut random, &m, &other, &mut measure, &mut seen)?;
        }
        for shapes in [&SHAPES[..], &SESSION_SHAPES] {
            seen.shapes.all_of(shapes)?;
        }
        seen.images.all_of(&manners())?;
        let every_byte: Vec<u8> = (0..=u8::MAX).collect();
        seen.reasons.all_of(&every_byte)?;
        let mut said = format!(
            "{lists} lists, levels held {} times, {}, {}",
            seen.levels,
            seen.read_strictly()?,
            seen.looked.said()?
        );
        for ((call, numbers), met) in REFUSALS.iter().zip(&seen.refusals) {
            let met = met
                .all_of(numbers)
                .map_err(|what| format!("{call}: {what}"))?;
            said += &format!(", {call}: {met}");
        }
        let results = seen.results.all_of(&RESULTS)?;
        Ok(format!("{said}, accepted: {results}"))
    });
}

pub fn run(tally: &mut Tally) {
    made_groups(tally);
    random_groups(tally);
}
