//! The turns between the two kinds of image.
//!
//! The image received is only read. An accepted turn writes the whole of the
//! other one; a refused turn leaves it as it was. An open question turns with
//! the session. The scratch is zero whole after every turn, but untouched under
//! refusal 1.

use crate::book_test::open;
use crate::image::{Kind, Session, IMAGE_SIZE, NARROW_SIZE};
use crate::program::Program;
use crate::refusal::{refuse_if, SESSION, TOO_DEEP_FOR_NARROW};
use crate::session::session_in;

/// The depth of the deepest node that a narrow session has.
pub const NARROW_DEPTH: usize = 64;

/// A narrow image into a wide one: refusals 1 to 6, 28 and 20, also for a narrow
/// session that is too deep and for a wide image of another length.
pub fn widen(book: &[u8], scratch: &mut [u8], narrow: &[u8], image: &mut [u8]) -> Result<(), u32> {
    let program = open(book, scratch)?;
    let session = session_in(&program, Kind::Narrow, narrow)?;
    refuse_if(is_too_deep(&program, &session), SESSION)?;
    refuse_if(image.len() != IMAGE_SIZE, SESSION)?;
    session.write(Kind::Wide, image);
    Ok(())
}

/// A wide image into a narrow one: refusals 1 to 6, 28, 20, also for a narrow image
/// of another length, and 24 for a session that is too deep.
pub fn narrow(book: &[u8], scratch: &mut [u8], image: &[u8], narrow: &mut [u8]) -> Result<(), u32> {
    let program = open(book, scratch)?;
    let session = session_in(&program, Kind::Wide, image)?;
    refuse_if(narrow.len() != NARROW_SIZE, SESSION)?;
    refuse_if(is_too_deep(&program, &session), TOO_DEEP_FOR_NARROW)?;
    session.write(Kind::Narrow, narrow);
    Ok(())
}

/// For a narrow session, by its node: neither the levels that it stores nor the
/// two of an open question count.
fn is_too_deep(program: &Program, session: &Session) -> bool {
    program.depth(session.node as usize) > NARROW_DEPTH
}
