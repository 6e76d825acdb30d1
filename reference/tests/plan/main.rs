//! Tests of the readable plan form, its tool, and the box chains.
#![deny(warnings)]

mod bad_texts;
mod chains;
mod checked_books;
mod evaluation;
mod forms;
mod limits;
mod naive_rules;
mod names;
mod noise;
mod out_files;
mod prints;
mod refused_names;
mod round_trips;
mod samples;
mod sorts;
mod tool;
