//! The term `false`. Asked at a node, it tells whether the premises there
//! contradict each other.

use crate::book::{kind, Section, TERM_FIELDS};
use crate::maker::Maker;

const FALSE: [u32; TERM_FIELDS] = [kind::BOOLEAN, 0, 0, 0, 0, 0, 0];

/// Adds `false` behind all terms where a book has none, so that no number
/// changes; gives whether the book has one then. It has none if its terms are
/// as many as can be.
pub fn add_false(maker: &mut Maker) -> bool {
    if maker.terms.contains(&FALSE) {
        return true;
    }
    let has_room = maker.terms.len() < Section::Terms.most();
    if has_room {
        maker.boolean(false);
    }
    has_room
}
