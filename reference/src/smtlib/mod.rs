//! What SMT-LIB 2.6 says: its words, the operators of its theories Core and
//! Ints, and a strict reader of the text that goes to a solver. The reader is
//! written from the standard, chapter 3, and shares nothing with what prints.
//!
//! To the standard `-5` is a simple symbol. So where it stands for a number it
//! is found by resolving names: a symbol in a term is declared and live, or
//! bound, or the theories', and takes as many arguments as it has. A sort is
//! resolved in the same way. A reader can be told to leave that out, for scripts
//! whose names mean several things.
//!
//! Not checked are the sorts of terms, that a logic was set, and that a model
//! can be had. Refused is what Core and Ints have no meaning for or the text
//! no need of: other commands, constants that are no numerals, `match`,
//! identifiers with indices, attributes but `:pattern`.

mod commands;
mod cursor;
mod declared;
mod lexer;
mod refused;
pub mod signatures;
mod sorts;
mod terms;
pub mod words;

pub use commands::Reader;
pub use refused::Refused;
