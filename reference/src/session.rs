//! The calls on a session: move, ask, reply and model.
//!
//! The session comes and goes as its wide byte image. An accepted call writes the
//! image of the session that it leaves, and its texts from byte 0; behind
//! them the buffers keep what they held. A refused call leaves image, text
//! and reason as they were. The scratch is zero whole after every call, but
//! untouched under refusal 1.

use crate::book_test::open;
use crate::commands::{self, CMD_GET_MODEL, CMD_POP};
use crate::image::{Kind, Owed, Session};
use crate::levels::{Levels, Mover};
use crate::program::Program;
use crate::refusal::{
    refuse_if, MISSING_AXIOM, NOT_IN_BOOK, NO_MODEL_OWED, NO_REPLY_OWED, REPLY_UNSAT, SESSION,
    SOMETHING_OWED, TOO_LONG,
};
use crate::sink::Sink;

/// The one reply on which a goal is proved.
pub const UNSAT: &[u8] = b"unsat";
/// What stands between reply and model in a reason.
const REASON_SEPARATOR: &[u8] = b"\n";

/// What a reply or model call leads to, with the lengths of what it wrote. A
/// buffer whose length is not given is untouched.
#[derive(Clone, Copy, Debug, PartialEq, Eq)]
pub enum Replied {
    Proved { text: usize },
    Unproved { text: usize, reason: usize },
    ModelOwed { text: usize },
}

/// Moves the session to a node: refusals 1 to 6, 28, 7, 20, 21, 9, 10. Gives the
/// length of the commands in `text`.
pub fn move_to(
    book: &[u8],
    scratch: &mut [u8],
    image: &mut [u8],
    node: u32,
    text: &mut [u8],
) -> Result<usize, u32> {
    let program = open(book, scratch)?;
    refuse_if(!program.has_node(node), NOT_IN_BOOK)?;
    travel(&program, image, node, None, text)
}

/// Moves the session and asks for a goal: refusals 1 to 6, 28, 7, 20, 21, 9, 10.
/// Gives the length of the commands in `text`; the image owes a reply.
pub fn ask(
    book: &[u8],
    scratch: &mut [u8],
    image: &mut [u8],
    node: u32,
    term: u32,
    text: &mut [u8],
) -> Result<usize, u32> {
    let program = open(book, scratch)?;
    let in_book = program.has_node(node) && program.has_term(term);
    refuse_if(!in_book, NOT_IN_BOOK)?;
    travel(&program, image, node, Some(term), text)
}

/// A move, and the question behind it if there is a goal.
fn travel(
    program: &Program,
    image: &mut [u8],
    node: u32,
    goal: Option<u32>,
    text: &mut [u8],
) -> Result<usize, u32> {
    let session = session_in(program, Kind::Wide, image)?;
    refuse_if(session.owed != Owed::Nothing, SOMETHING_OWED)?;
    let mut mover = Mover::new(program, session.levels, Sink::new(text.len()));
    mover.move_between(session.node as usize, node as usize);
    if let Some(goal) = goal {
        mover.question(goal as usize);
    }
    let (levels, sent) = mover.outcome().ok_or(MISSING_AXIOM)?;
    let length = sent.deliver(text)?;
    let moved = Session {
        node,
        goal: goal.unwrap_or(0),
        owed: goal.map_or(Owed::Nothing, |_| Owed::Reply),
        levels,
    };
    moved.write(Kind::Wide, image);
    Ok(length)
}

/// Takes the solver's reply, or the error text of a check that failed:
/// refusals 1 to 6, 28, 20, 22, 10. Only a failed check has a reason, the error
/// text; after another reply than unsat the image owes a model.
pub fn reply(
    book: &[u8],
    scratch: &mut [u8],
    image: &mut [u8],
    failed: bool,
    reply: &[u8],
    text: &mut [u8],
    reason: &mut [u8],
) -> Result<Replied, u32> {
    let program = open(book, scratch)?;
    let session = session_in(&program, Kind::Wide, image)?;
    refuse_if(session.owed != Owed::Reply, NO_REPLY_OWED)?;
    if failed {
        settle_unproved(session, image, &[reply], text, reason)
    } else if reply == UNSAT {
        let text = two_pops(text.len()).deliver(text)?;
        settled(session).write(Kind::Wide, image);
        Ok(Replied::Proved { text })
    } else {
        let mut sent = Sink::new(text.len());
        commands::send(CMD_GET_MODEL, &mut sent);
        let text = sent.deliver(text)?;
        let owing = Session {
            owed: Owed::Model,
            ..session
        };
        owing.write(Kind::Wide, image);
        Ok(Replied::ModelOwed { text })
    }
}

/// Takes the reply once more and the model, if one came: refusals 1 to 6,
/// 28, 20, 23, 8, 10. It always leads to `Unproved`; the reason is the reply and,
/// if a model came, a line end and the model.
pub fn model(
    book: &[u8],
    scratch: &mut [u8],
    image: &mut [u8],
    reply: &[u8],
    model: Option<&[u8]>,
    text: &mut [u8],
    reason: &mut [u8],
) -> Result<Replied, u32> {
    let program = open(book, scratch)?;
    let session = session_in(&program, Kind::Wide, image)?;
    refuse_if(session.owed != Owed::Model, NO_MODEL_OWED)?;
    refuse_if(reply == UNSAT, REPLY_UNSAT)?;
    match model {
        None => settle_unproved(session, image, &[reply], text, reason),
        Some(model) => {
            let parts = [reply, REASON_SEPARATOR, model];
            settle_unproved(session, image, &parts, text, reason)
        }
    }
}

/// The end of a question that was not proved. Both lengths are decided
/// before either buffer is written.
fn settle_unproved(
    session: Session,
    image: &mut [u8],
    reason_parts: &[&[u8]],
    text: &mut [u8],
    reason: &mut [u8],
) -> Result<Replied, u32> {
    let mut reason_sink = Sink::new(reason.len());
    for part in reason_parts {
        reason_sink.write(part);
    }
    refuse_if(reason_sink.text().is_none(), TOO_LONG)?;
    let text = two_pops(text.len()).deliver(text)?;
    let reason = reason_sink.deliver(reason)?;
    settled(session).write(Kind::Wide, image);
    Ok(Replied::Unproved { text, reason })
}

/// The levels of the goal and of its negation go.
fn two_pops(limit: usize) -> Sink {
    let mut sent = Sink::new(limit);
    commands::send(CMD_POP, &mut sent);
    commands::send(CMD_POP, &mut sent);
    sent
}

/// The session once its question is closed.
fn settled(session: Session) -> Session {
    Session {
        goal: 0,
        owed: Owed::Nothing,
        ..session
    }
}

/// The session of an image of a kind, or refusal 20: it is the one that a
/// fresh move to its node has, but for an open question.
pub(crate) fn session_in(program: &Program, kind: Kind, image: &[u8]) -> Result<Session, u32> {
    let session = Session::read(kind, image).ok_or(SESSION)?;
    refuse_if(!program.has_node(session.node), SESSION)?;
    let question_passes = match session.owed {
        Owed::Nothing => session.goal == 0,
        Owed::Reply | Owed::Model => program.has_term(session.goal),
    };
    refuse_if(!question_passes, SESSION)?;
    let fresh = Levels::fresh(program, session.node as usize);
    refuse_if(fresh.as_ref() != Some(&session.levels), SESSION)?;
    Ok(session)
}
