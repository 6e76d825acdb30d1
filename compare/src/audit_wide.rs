//! Books one of whose levels has many lines.

use leskofar_reference::book::{kind, Section, INT};
use leskofar_reference::maker::Maker;
use leskofar_reference::stack::Level;

/// A book, and a goal that declares much.
pub struct Wide {
    pub maker: Maker,
    pub goal: u32,
}

/// Literals of each user type.
const LITERALS: usize = 11;

/// Equal lines of one level, many times more than ours has.
pub const EQUAL_LINES: usize = 6_000;

pub fn equal_level() -> Level {
    vec![b"(assert )".to_vec(); EQUAL_LINES]
}

/// As many types and constants as there can be, and literals, all in one goal:
/// no two lines of its first level are equal.
pub fn wide() -> Wide {
    let mut m = Maker::default();
    let types: Vec<u32> = (0..Section::Types.most())
        .map(|number| m.user_type(&format!("T{number}")))
        .collect();
    let mut args: Vec<u32> = (0..Section::Constants.most())
        .map(|number| {
            let constant = m.constant(&format!("c{number}"), INT);
            m.id(constant)
        })
        .collect();
    for number in 0..LITERALS {
        let name = m.name(&number.to_string());
        args.extend(
            types
                .iter()
                .map(|typ| m.term(kind::CUSTOM_LITERAL, [name, *typ])),
        );
    }
    let goal = m.built_in("and", &args);
    Wide { maker: m, goal }
}

/// So many constants that look alike, and so many of a second sort.
pub fn alike(times: [usize; 2]) -> Wide {
    let mut m = Maker::default();
    let mut args = Vec::new();
    for (name, times) in ["a", "b"].into_iter().zip(times) {
        for _ in 0..times {
            let constant = m.constant(name, INT);
            args.push(m.id(constant));
        }
    }
    let goal = m.built_in("and", &args);
    Wide { maker: m, goal }
}
