//! The strict reader of SMT-LIB 2.6.
#![deny(warnings)]

mod commands;
mod sent;
mod terms;
mod tokens;
