//! Books for tests of limits: a tiny one, and books with so many records of a
//! section.

use crate::book::{kind, Section, INT, NO_TERM};
use crate::maker::Maker;
use crate::name_faults::declarable_name;

/// A name `n`, a constant `c`, two terms that nothing refers to.
pub fn tiny() -> Maker {
    let mut m = Maker::default();
    m.name("n");
    m.constant("c", INT);
    m.boolean(true);
    m.boolean(false);
    m
}

/// The book with so many records of a section, the new ones harmless. It has
/// a name that may be declared, or gets no types, constants and functions.
pub fn filled_up(mut m: Maker, section: Section, count: usize) -> Maker {
    let name = declarable_name(&m).unwrap_or(0);
    match section {
        Section::Letters => m.letters.resize(count, b'x'),
        Section::Names => m.names.resize(count, [0, 0]),
        Section::Types => m.types.resize(count, [name]),
        Section::Constants => m.constants.resize(count, [name, INT]),
        Section::Functions => m.functions.resize(count, [name, INT, 0, 0, 0, 0]),
        Section::Axioms => m.axioms.resize(count, [NO_TERM, 0, 0]),
        Section::Patterns => m.patterns.resize(count, [0, 0]),
        Section::Terms => m.terms.resize(count, [kind::BOOLEAN, 1, 0, 0, 0, 0, 0]),
        Section::Contexts => {
            while m.contexts.len() < count {
                let term = m.boolean(true);
                m.context(0, term);
            }
        }
        Section::Lists => m.lists.resize(count, 0),
    }
    m
}
