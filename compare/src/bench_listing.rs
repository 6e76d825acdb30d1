//! Speed of listings as a ratio to the reference, both measured in this run.

use crate::bench_table::{head, row, LONG, SHORT, TERMS};
use crate::library;
use crate::made_terms::{flat, nest_of, path_of};
use leskofar_reference::book::Section;
use leskofar_reference::book_test::MOST_DEPTH;
use leskofar_reference::maker::Maker;

/// The nests that are listed: one that costs a call for each step, and two
/// that cost none.
const NESTS: [&str; 3] = ["first arguments", "quantifier bodies", "only arguments"];

/// Nodes of a path whose terms grow.
const NODES: usize = 64;

/// The last term as the goal at the last node.
fn bench_listing(name: &str, m: &Maker) {
    let node = m.contexts.len() as u32;
    let goal = m.terms.len() as u32 - 1;
    row(
        name,
        m,
        |book, scratch, text| library::listing(book, scratch, node, goal, text),
        |book, scratch, text| leskofar_reference::listing(book, scratch, node, goal, text),
    );
}

pub fn run() {
    head("listing");
    for (name, letters) in [("short names", SHORT), ("long names", LONG)] {
        for terms in TERMS {
            bench_listing(&format!("flat, {name}"), &flat(terms - 1, letters));
        }
        for terms in TERMS {
            let m = path_of(NODES, terms, letters);
            bench_listing(&format!("a path of {NODES} nodes, {name}"), &m);
        }
        let m = path_of(MOST_DEPTH, Section::Terms.most(), letters);
        bench_listing(&format!("a path of {MOST_DEPTH} nodes, {name}"), &m);
    }
    for shape in NESTS {
        for terms in TERMS {
            bench_listing(shape, &nest_of(shape, terms));
        }
    }
}
