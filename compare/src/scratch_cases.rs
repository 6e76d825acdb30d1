//! Calls that take a scratch, on a book where each can be accepted, and be
//! refused for whatever comes behind the book test.

use crate::audit_order::GOOD_LEVELS;
use crate::calls::{Call, OK};
use crate::image_places::spelled;
use crate::made_growths::{each_call, each_call_below};
use crate::scratch_calls::Lent;
use crate::session_images::sample_images;
use crate::turn_call::Turn;
use leskofar_reference::audit::SCRIPT_MOST;
use leskofar_reference::audit_samples::{bytes, lacking_function, script_of, CHECK_SAT};
use leskofar_reference::book::INT;
use leskofar_reference::filled_books::tiny;
use leskofar_reference::fresh_image;
use leskofar_reference::image::Kind;
use leskofar_reference::maker::Maker;
use leskofar_reference::nodes::MOST_NODES;
use leskofar_reference::program;
use leskofar_reference::session::UNSAT;
use leskofar_reference::turns::NARROW_DEPTH;

const ROOT: u32 = program::ROOT as u32;
/// The first of two terms that nothing refers to.
const FREE: u32 = 0;
/// A node that declares nothing, and the last of its chain, which is too deep
/// for a narrow session.
const NODE: u32 = 1;
const DEEP: u32 = NARROW_DEPTH as u32 + 1;
/// The node that lacks an axiom, and one that is not there.
const LACKING: u32 = DEEP + 1;
const OUTSIDE: u32 = LACKING + 1;
/// A text that is appended.
const TEXT: &[u8] = b"t";

pub struct Stage {
    pub maker: Maker,
    goal: u32,
}

/// A chain, a node beside it that lacks an axiom, and a goal.
pub fn stage() -> Stage {
    let mut m = tiny();
    let f = lacking_function(&mut m);
    let mut node = ROOT;
    for _ in ROOT..DEEP {
        let term = m.boolean(true);
        node = m.traced_context(node, term, "here");
    }
    let lacking = m.apply(f, &[]);
    m.context(ROOT, lacking);
    let goal = m.boolean(false);
    Stage { maker: m, goal }
}

/// The same with a `%tag`, of which no script can be audited.
pub fn tagged() -> Stage {
    let mut stage = stage();
    stage.maker.literal("%tag", INT);
    stage
}

/// Each call at the root, with the first term and a fresh session.
pub fn plain_calls() -> Vec<Lent> {
    let wide = fresh_image().to_vec();
    let on_fresh = [
        Call::Move { node: ROOT },
        Call::Ask {
            node: ROOT,
            goal: FREE,
        },
        Call::reply(OK, UNSAT),
        Call::model(b"sat", None),
    ];
    let mut calls = vec![
        Lent::BookTest,
        Lent::Print(FREE),
        Lent::Trace(ROOT),
        Lent::Listing(ROOT, FREE),
        Lent::NodesTest(vec![ROOT]),
        Lent::Audit(vec![], vec![]),
        Lent::Turn(Turn::Widen, spelled(Kind::Narrow, [0; 3], &[])),
        Lent::Turn(Turn::Narrow, wide.clone()),
    ];
    calls.extend(on_fresh.map(|call| Lent::Session(call, wide.clone())));
    calls.extend(each_call(FREE, TEXT).map(Lent::Grow));
    calls
}

/// Each call as it is accepted on the stage, and as it is refused there.
pub fn stage_calls(stage: &Stage) -> Result<Vec<Lent>, String> {
    let mut calls = plain_calls();
    let goal = stage.goal;
    let no_term = stage.maker.terms.len() as u32;
    calls.extend([
        Lent::Print(no_term),
        Lent::Trace(NODE),
        Lent::Trace(OUTSIDE),
        Lent::Listing(NODE, goal),
        Lent::Listing(OUTSIDE, goal),
        Lent::Listing(NODE, no_term),
        Lent::NodesTest(vec![NODE, LACKING]),
        Lent::NodesTest(vec![NODE, OUTSIDE]),
        Lent::NodesTest(vec![ROOT; MOST_NODES + 1]),
    ]);
    calls.extend(audits(goal));
    calls.extend(session_calls(stage)?);
    calls.extend(turns());
    calls.extend(each_call_below(OUTSIDE, FREE, TEXT).map(Lent::Grow));
    Ok(calls)
}

/// Accepted, one that differs, and each refusal.
fn audits(goal: u32) -> Vec<Lent> {
    let asked = bytes(&[[NODE, goal]]);
    let good = format!("{GOOD_LEVELS}{CHECK_SAT}");
    let of = |questions: &[u8], script: &[u8]| Lent::Audit(questions.to_vec(), script.to_vec());
    vec![
        of(&asked, good.as_bytes()),
        of(&asked, CHECK_SAT.as_bytes()),
        of(&asked, b""),
        of(&asked, b"foreign\n"),
        of(&asked, &script_of(SCRIPT_MOST + 1)),
        of(&bytes(&[[LACKING, goal]]), good.as_bytes()),
        of(&bytes(&[[OUTSIDE, goal]]), good.as_bytes()),
    ]
}

/// Every call on sessions that owe nothing, a reply and a model, and on none.
fn session_calls(stage: &Stage) -> Result<Vec<Lent>, String> {
    let goal = stage.goal;
    let calls = [
        Call::Move { node: NODE },
        Call::Move { node: LACKING },
        Call::Move { node: OUTSIDE },
        Call::Ask { node: NODE, goal },
        Call::Ask {
            node: LACKING,
            goal,
        },
        Call::Ask {
            node: OUTSIDE,
            goal,
        },
        Call::reply(OK, UNSAT),
        Call::reply(OK, b"sat"),
        Call::model(b"sat", Some(b"model")),
        Call::model(UNSAT, None),
    ];
    let mut images = sample_images(&stage.maker, goal)?;
    images.push(vec![]);
    let on_each = |image: Vec<u8>| {
        let calls = calls.clone();
        calls.map(|call| Lent::Session(call, image.clone()))
    };
    Ok(images.into_iter().flat_map(on_each).collect())
}

/// Of sessions that are too deep for a narrow one, and of none.
fn turns() -> Vec<Lent> {
    let deep = |kind| spelled(kind, [DEEP, 0, 0], &[]);
    vec![
        Lent::Turn(Turn::Widen, deep(Kind::Narrow)),
        Lent::Turn(Turn::Widen, vec![]),
        Lent::Turn(Turn::Narrow, deep(Kind::Wide)),
        Lent::Turn(Turn::Narrow, vec![]),
    ]
}
