//! Random calls, mostly those whose turn it is, and buffers for them.

use crate::calls::Call;
use leskofar_reference::image::Owed;
use leskofar_reference::maker::Maker;
use leskofar_reference::random::{Random, AT_TIMES, HARDLY_EVER, OFTEN, RARELY};
use leskofar_reference::session::UNSAT;

/// Replies that are not quite `unsat`, and usual ones.
const REPLIES: [&[u8]; 9] = [
    b"",
    b"unsat\n",
    b"unsa",
    b"unsatt",
    b"Unsat",
    b"\0unsat",
    b"sat",
    b"unknown",
    b"(error \"line 1\")\n",
];
/// Flags that are set.
const SET: [u32; 5] = [1, 7, 256, 1 << 31, u32::MAX];
const NOT_SET: u32 = 0;
/// The most bytes of a usual random reply, and of a rare one, which has every
/// byte value.
const SHORT: usize = 12;
const EVERY_BYTE: usize = 1024;
const CALLS: usize = 4;
/// How much longer than its text a buffer is.
const LONGER: [usize; 4] = [1, 2, 9, 4096];

/// A call on a session that owes so much.
pub fn random_call(random: &mut Random, m: &Maker, owed: Owed) -> Call {
    let turn = match owed {
        _ if random.one_in(RARELY) => random.below(CALLS),
        Owed::Nothing => random.below(2),
        Owed::Reply => 2,
        Owed::Model => 3,
    };
    match turn {
        0 => Call::Move {
            node: node(random, m),
        },
        1 => Call::Ask {
            node: node(random, m),
            goal: goal(random, m),
        },
        2 => Call::Reply {
            ok: flag(random),
            reply: reply(random),
        },
        _ => Call::Model {
            reply: reply(random),
            has_model: flag(random),
            model: text(random),
        },
    }
}

/// A node, at times one of the last, which are often deep.
fn node(random: &mut Random, m: &Maker) -> u32 {
    let nodes = m.contexts.len();
    if random.one_in(AT_TIMES) {
        nodes.saturating_sub(random.below(2)) as u32
    } else {
        number(random, nodes + 1)
    }
}

/// A term, at times the last, which has often others inside.
fn goal(random: &mut Random, m: &Maker) -> u32 {
    let terms = m.terms.len();
    if terms > 0 && random.one_in(AT_TIMES) {
        terms as u32 - 1
    } else {
        number(random, terms)
    }
}

/// A number below a bound, or at times one that is not.
fn number(random: &mut Random, bound: usize) -> u32 {
    if bound == 0 || random.one_in(RARELY) {
        random.pick(&[bound as u32, bound as u32 + 1, 1 << 31, u32::MAX])
    } else {
        random.below(bound) as u32
    }
}

fn flag(random: &mut Random) -> u32 {
    if random.one_in(AT_TIMES) {
        NOT_SET
    } else {
        random.pick(&SET)
    }
}

fn reply(random: &mut Random) -> Vec<u8> {
    if random.one_in(AT_TIMES) {
        UNSAT.to_vec()
    } else if random.one_in(OFTEN) {
        random.pick(&REPLIES).to_vec()
    } else {
        text(random)
    }
}

/// Bytes of every value, or none.
fn text(random: &mut Random) -> Vec<u8> {
    let most = if random.one_in(HARDLY_EVER) {
        EVERY_BYTE
    } else {
        SHORT
    };
    let length = random.up_to(most);
    random.bytes(length)
}

/// A buffer for a text: just long enough, longer, too short by one, or none.
pub fn room(random: &mut Random, length: usize) -> usize {
    if random.one_in(RARELY) {
        length.saturating_sub(1)
    } else if random.one_in(HARDLY_EVER) {
        0
    } else if random.one_in(OFTEN) {
        length
    } else {
        length + random.pick(&LONGER)
    }
}
