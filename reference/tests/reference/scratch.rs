//! The scratch of every call, by the documents' numbers and not by the program's
//! own constants; and a second reference in books of 1,024 terms.

use crate::desk::buffer;
use crate::writer_refusals::each_call;
use leskofar_reference::book::Section;
use leskofar_reference::filled_books::{filled_up, tiny};
use leskofar_reference::image::NARROW_SIZE;
use leskofar_reference::maker::Maker;
use leskofar_reference::refusal::{FOREST, SCRATCH_SHORT};
use leskofar_reference::{
    ask, audit, book_test, fresh_image, listing, model, move_to, narrow, nodes_test, print, reply,
    trace, widen,
};

const TOO_SHORT: usize = 127;
const LEAST: usize = 128;
/// Longer ones, among them the least of before.
const LONGER: [usize; 5] = [129, 1_023, 1_024, 1_025, 5_000];
/// More than any text or new book here has.
const ROOM: usize = 1 << 12;
/// Terms at the borders of the bytes that their marks stand in.
const EDGES: [u32; 11] = [0, 1, 7, 8, 9, 511, 512, 1_015, 1_016, 1_022, 1_023];

/// A call with what it is given but for the scratch.
type Call = fn(&[u8], &mut [u8]) -> Result<(), u32>;

/// The calls but for the writer's. No reply and no model is owed.
const CALLS: [Call; 12] = [
    |book, scratch| book_test(book, scratch),
    |book, scratch| print(book, scratch, 0, 0, false, 0, &mut buffer(ROOM)).map(drop),
    |book, scratch| trace(book, scratch, 0, &mut buffer(ROOM)).map(drop),
    |book, scratch| listing(book, scratch, 0, 0, &mut buffer(ROOM)).map(drop),
    |book, scratch| nodes_test(book, scratch, &[0; 4]).map(drop),
    |book, scratch| audit(book, scratch, &[], &[]).map(drop),
    |book, scratch| move_to(book, scratch, &mut fresh_image(), 0, &mut []).map(drop),
    |book, scratch| ask(book, scratch, &mut fresh_image(), 0, 0, &mut buffer(ROOM)).map(drop),
    |book, scratch| {
        let mut image = fresh_image();
        reply(book, scratch, &mut image, false, b"sat", &mut [], &mut []).map(drop)
    },
    |book, scratch| {
        let mut image = fresh_image();
        model(book, scratch, &mut image, b"sat", None, &mut [], &mut []).map(drop)
    },
    |book, scratch| widen(book, scratch, &[], &mut []),
    |book, scratch| narrow(book, scratch, &fresh_image(), &mut buffer(NARROW_SIZE)),
];

/// A call with scratches of every length: refused 1 for 127 bytes, and the same
/// for 128 and more.
fn check(call: impl Fn(&[u8], &mut [u8]) -> Result<(), u32>) -> Result<(), u32> {
    let book = tiny().book();
    for size in [0, 1, TOO_SHORT] {
        let mut scratch = buffer(size);
        assert_eq!(call(&book, &mut scratch), Err(SCRATCH_SHORT));
        assert_eq!(scratch, buffer(size));
    }
    let with = |size: usize| {
        let mut scratch = buffer(size);
        let answer = call(&book, &mut scratch);
        assert_eq!(scratch, vec![0; size]);
        answer
    };
    let answer = with(LEAST);
    assert_ne!(answer, Err(SCRATCH_SHORT));
    for size in LONGER {
        assert_eq!(with(size), answer);
    }
    answer
}

#[test]
fn every_call_refuses_127_bytes_and_takes_128() {
    let accepted = CALLS.into_iter().filter(|call| check(call).is_ok());
    // All but reply, model and widen, which are given no session of theirs.
    assert_eq!(accepted.count(), CALLS.len() - 3);
    for growth in each_call() {
        let grown = check(|book, scratch| {
            let answer = growth.call(book, scratch, &mut buffer(ROOM));
            answer.map(drop)
        });
        assert_eq!(grown, Ok(()));
    }
}

/// A book of 1,024 terms with a change, tested with the least scratch.
fn tested(change: impl FnOnce(&mut Maker)) -> Result<(), u32> {
    let mut m = filled_up(tiny(), Section::Terms, 1_024);
    change(&mut m);
    book_test(&m.book(), &mut buffer(LEAST))
}

/// Terms whose numbers differ by one bit: in the same byte, beside it and far
/// away.
fn others(t: u32) -> [u32; 5] {
    [1, 2, 4, 8, 512].map(|bit| t ^ bit)
}

#[test]
fn five_is_for_a_second_reference_at_any_of_1024_terms() {
    let contexts = |first, second| {
        tested(|m| {
            m.context(0, first);
            m.context(0, second);
        })
    };
    let axiom_and_context = |first, second| {
        tested(|m| {
            m.axiom(Some(first), &[]);
            m.context(0, second);
        })
    };
    for t in EDGES {
        assert_eq!(contexts(t, t), Err(FOREST));
        assert_eq!(axiom_and_context(t, t), Err(FOREST));
        for other in others(t) {
            assert_eq!(contexts(t, other), Ok(()));
            assert_eq!(axiom_and_context(other, t), Ok(()));
        }
    }
}

#[test]
fn five_is_for_a_second_reference_from_a_term() {
    // The last term, to which no term refers.
    let last = 1_023;
    let from_last = |arguments: [u32; 2]| {
        tested(|m| {
            m.terms.pop();
            m.built_in("and", &arguments);
        })
    };
    for t in EDGES.into_iter().filter(|t| *t < last) {
        assert_eq!(from_last([t, t]), Err(FOREST));
        for other in others(t).into_iter().filter(|other| *other < last) {
            assert_eq!(from_last([t, other]), Ok(()));
        }
    }
}
