//! A separate reference of the script writer, from document 01 and the Dafny
//! bodies. The public calls are plain functions on byte slices and numbers.
#![deny(warnings)]

pub mod apart_books;
pub mod asserted;
pub mod attack;
pub mod audit;
pub mod audit_samples;
pub mod book;
pub mod book_test;
pub mod chains;
pub mod commands;
pub mod damage;
pub mod engine;
pub mod filled_books;
pub mod image;
pub mod levels;
pub mod listing;
pub mod live_lines;
pub mod lower;
pub mod maker;
pub mod name_faults;
pub mod nodes;
pub mod operators;
pub mod plan;
pub mod printing;
pub mod program;
pub mod random;
pub mod random_books;
mod random_names;
mod random_terms;
pub mod refusal;
pub mod sample_lines;
pub mod sane_books;
pub mod script;
pub mod session;
pub mod sexpr;
pub mod sink;
pub mod smtlib;
pub mod stack;
pub mod strangers;
pub mod symbols;
pub mod term_symbols;
pub mod told_apart;
pub mod turns;
pub mod walk;
pub mod writer;

pub use audit::audit;
pub use book_test::book_test;
pub use image::fresh_image;
pub use listing::listing;
pub use nodes::nodes_test;
pub use operators::operator;
pub use printing::{print, trace};
pub use script::script;
pub use session::{ask, model, move_to, reply, Replied};
pub use turns::{narrow, widen};
