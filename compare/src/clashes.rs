//! The clashes of names that keep a book from being told apart, each as the
//! records and the term of its two sides, with the breach that it leads to.

use leskofar_reference::book::{BOOL, INT};
use leskofar_reference::maker::Maker;
use leskofar_reference::strangers::Breach;

/// Adds what it needs, and gives a term that uses it.
type Side = fn(&mut Maker) -> u32;

pub struct Clash {
    pub name: &'static str,
    /// The first by itself leaves a book told apart.
    pub sides: [Side; 2],
    pub is_breach: fn(&Breach) -> bool,
}

/// A symbol whose name is declared twice.
const TWICE: fn(&Breach) -> bool = |breach| matches!(breach, Breach::NotOnce { times: 2, .. });
/// A literal that is not declared, since another has its name.
const NOT_ITS_OWN: fn(&Breach) -> bool = |breach| matches!(breach, Breach::NotItsOwn { .. });

fn constant(m: &mut Maker, name: &str, typ: u32) -> u32 {
    let constant = m.constant(name, typ);
    m.id(constant)
}

fn function(m: &mut Maker, name: &str) -> u32 {
    let function = m.function(name, &[], INT);
    m.apply(function, &[])
}

fn constant_of_new_type(m: &mut Maker, name: &str, typ: &str) -> u32 {
    let typ = m.user_type(typ);
    constant(m, name, typ)
}

fn literal_of_new_type(m: &mut Maker, text: &str, typ: &str) -> u32 {
    let typ = m.user_type(typ);
    m.literal(text, typ)
}

pub const CLASHES: [Clash; 12] = [
    Clash {
        name: "two constants of one name",
        sides: [|m| constant(m, "dye", INT), |m| constant(m, "dye", INT)],
        is_breach: TWICE,
    },
    Clash {
        name: "two constants of one name and two types",
        sides: [|m| constant(m, "dye", INT), |m| constant(m, "dye", BOOL)],
        is_breach: TWICE,
    },
    Clash {
        name: "a name with bars and without",
        sides: [|m| constant(m, "dye", INT), |m| constant(m, "|dye|", INT)],
        is_breach: TWICE,
    },
    Clash {
        name: "a name that gets bars and one that has them",
        sides: [
            |m| constant(m, "red 40", INT),
            |m| constant(m, "|red 40|", INT),
        ],
        is_breach: TWICE,
    },
    Clash {
        name: "a constant and a function",
        sides: [|m| constant(m, "dye", INT), |m| function(m, "dye")],
        is_breach: TWICE,
    },
    Clash {
        name: "two functions",
        sides: [|m| function(m, "let"), |m| function(m, "|let|")],
        is_breach: TWICE,
    },
    Clash {
        name: "a constant and a literal",
        sides: [|m| constant(m, "|dye:int|", INT), |m| m.literal("dye", INT)],
        is_breach: TWICE,
    },
    Clash {
        name: "a literal's text of Int and of a type int",
        sides: [
            |m| m.literal("dye", INT),
            |m| literal_of_new_type(m, "dye", "int"),
        ],
        is_breach: NOT_ITS_OWN,
    },
    Clash {
        name: "literals that are split apart elsewhere",
        sides: [
            |m| literal_of_new_type(m, "dye:of", "wool"),
            |m| literal_of_new_type(m, "dye", "of:wool"),
        ],
        is_breach: NOT_ITS_OWN,
    },
    Clash {
        name: "two types of one name",
        sides: [
            |m| constant_of_new_type(m, "dye", "Wool"),
            |m| constant_of_new_type(m, "shade", "|Wool|"),
        ],
        is_breach: TWICE,
    },
    Clash {
        name: "a type of a built-in type's name",
        sides: [
            |m| constant(m, "dye", INT),
            |m| constant_of_new_type(m, "shade", "Int"),
        ],
        is_breach: |breach| matches!(breach, Breach::BuiltInSort { .. }),
    },
    Clash {
        name: "a constant of an operator's name",
        sides: [
            |m| m.built_in("dyed?", &[]),
            |m| constant(m, "|dyed?|", BOOL),
        ],
        is_breach: |breach| matches!(breach, Breach::Operator { .. }),
    },
];
