//! Random books with sane operators whose names mean several things.

use leskofar_reference::maker::Maker;
use leskofar_reference::name_faults::may_be_in_literal;
use leskofar_reference::random::Random;
use leskofar_reference::sane_books::sane_book;

/// Names of which any two records may have the same, and solvers' own.
const CLASHING: [&str; 12] = [
    "x", "|x|", "and", "true", "Bool", "@a", ".b", "red 40", "|red 40|", "let", "|let|", "-5",
];

/// A book in which most names mean several things.
pub fn clashing_book(random: &mut Random) -> Maker {
    let mut m = sane_book(random);
    // One that a solver knows, whatever the others are.
    let known = m.name("or");
    let names = CLASHING.map(|name| m.name(name));
    let declared = names.into_iter().chain([known]).collect::<Vec<u32>>();
    for constant in &mut m.constants {
        constant[0] = random.pick(&declared);
    }
    for function in &mut m.functions {
        function[0] = random.pick(&declared);
    }
    m.constants[0][0] = known;
    let plain = CLASHING.iter().zip(names);
    let plain: Vec<u32> = plain
        .filter(|(text, _)| may_be_in_literal(text))
        .map(|(_, name)| name)
        .collect();
    for typ in &mut m.types {
        typ[0] = random.pick(&plain);
    }
    m
}
