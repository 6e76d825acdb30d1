//! The readable form of books: a text in the manner of SMT-LIB, read as a
//! book with goals and written from a book. docs/PLAN.md describes it.

mod binder;
mod check;
mod complaint;
mod cursor;
mod error;
mod falsehood;
pub mod files;
mod handles;
mod item_order;
mod layout;
mod lexer;
mod names;
mod nesting;
mod packing;
mod parser;
mod places;
mod scope;
mod sorts;
mod storage;
mod syntax;
mod term_binder;
mod term_parser;
mod term_writer;
mod tokens;
mod words;
mod writer;

pub use check::{check_book, refused_names};
pub use complaint::{Complaint, Record};
pub use error::{PlanError, Position};
pub use falsehood::add_false;
pub use writer::write;

use crate::maker::Maker;

/// What a text holds: a book that passes the book test, and the goals, which
/// are no part of it.
#[derive(Clone, Debug)]
pub struct Plan {
    pub maker: Maker,
    pub goals: Vec<Goal>,
    /// Where rules were let go, the first complaint by those of names and by
    /// those of sorts.
    pub warnings: Vec<PlanError>,
}

/// Rules that are let go: of names, and of sorts and numbers of arguments.
#[derive(Clone, Copy, Debug, Default, PartialEq, Eq)]
pub struct Options {
    pub raw_names: bool,
    pub raw_sorts: bool,
}

impl Options {
    /// With both let go, every book can be read again from its text.
    pub const RAW: Options = Options {
        raw_names: true,
        raw_sorts: true,
    };
}

/// A question: does the term hold at the node?
#[derive(Clone, Debug, PartialEq, Eq)]
pub struct Goal {
    pub name: String,
    pub node: u32,
    pub term: u32,
}

pub fn read(text: &[u8], options: Options) -> Result<Plan, PlanError> {
    checked_plan(text, options).map_err(|error| *error)
}

fn checked_plan(text: &[u8], options: Options) -> error::Result<Plan> {
    let syntax = parser::parse(text)?;
    let bound = binder::bind(&syntax)?;
    let warnings = check::check_plan(&syntax, &bound, options)?;
    Ok(Plan {
        maker: bound.maker,
        goals: bound.goals,
        warnings,
    })
}
