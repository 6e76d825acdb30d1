//! Tests of what the host and the plan tool are attacked with.
#![deny(warnings)]

mod meaning;
mod mutants;
mod splices;
