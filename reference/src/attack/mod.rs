//! What the host and the plan tool are attacked with in tests: a solver's
//! answers spoilt at random, and plans changed at random. What a plan means is
//! worked out here by itself, from docs/PLAN.md, apart from `crate::plan`.

pub mod box_plans;
pub mod evaluation;
pub mod meaning;
pub mod mutations;
pub mod names;
pub mod readable;
pub mod recorded;
pub mod search;
mod slips;
pub mod sorts;
pub mod splicing;
mod term_meaning;
pub mod terms;
mod tricks;
