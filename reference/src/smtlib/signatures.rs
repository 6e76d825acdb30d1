//! The operators of SMT-LIB's core and integers: how many arguments each
//! takes, of which sort, and what it gives. Where SMT-LIB has a row of two or
//! more, a single argument is refused, since z3 takes `(<= x)` as true.

use crate::program::SType::{self, SBool, SInt};

#[derive(Clone, Copy, Debug)]
pub struct Signature {
    pub least: usize,
    /// None if there may be any more.
    pub most: Option<usize>,
    /// None if the arguments may have any sort, the same for all.
    pub takes: Option<SType>,
    pub gives: SType,
}

const fn one(takes: SType, gives: SType) -> Signature {
    Signature {
        least: 1,
        most: Some(1),
        takes: Some(takes),
        gives,
    }
}

const fn row(least: usize, takes: Option<SType>, gives: SType) -> Signature {
    Signature {
        least,
        most: None,
        takes,
        gives,
    }
}

const EQUALITY: Signature = row(2, None, SBool);
const CONNECTIVE: Signature = row(2, Some(SBool), SBool);
const COMPARISON: Signature = row(2, Some(SInt), SBool);
const ARITHMETIC: Signature = row(2, Some(SInt), SInt);

const SIGNATURES: [(&str, Signature); 17] = [
    ("=", EQUALITY),
    ("distinct", EQUALITY),
    ("=>", CONNECTIVE),
    ("and", CONNECTIVE),
    ("or", CONNECTIVE),
    ("xor", CONNECTIVE),
    ("not", one(SBool, SBool)),
    ("<", COMPARISON),
    ("<=", COMPARISON),
    (">", COMPARISON),
    (">=", COMPARISON),
    ("+", ARITHMETIC),
    ("*", ARITHMETIC),
    ("div", ARITHMETIC),
    // A minus before a number, or a row of differences.
    ("-", row(1, Some(SInt), SInt)),
    (
        "mod",
        Signature {
            most: Some(2),
            ..ARITHMETIC
        },
    ),
    ("abs", one(SInt, SInt)),
];

pub fn operators() -> impl Iterator<Item = &'static str> {
    SIGNATURES.iter().map(|(name, _)| *name)
}

/// None if it is no operator of the table.
pub fn signature(operator: &[u8]) -> Option<Signature> {
    let mut signatures = SIGNATURES.iter();
    let found = signatures.find(|(name, _)| name.as_bytes() == operator);
    found.map(|(_, signature)| *signature)
}
