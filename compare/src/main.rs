//! Compares the proved library with the reference. It ends with a line
//! `N passed, M failed`, and with status 1 where one failed. With the word
//! `tenth` it tries a tenth of the random inputs; with the word `bench` it
//! measures both instead.
#![deny(warnings)]

mod audit;
mod audit_books;
mod audit_call;
mod audit_changes;
mod audit_edges;
mod audit_foreign;
mod audit_library;
mod audit_lines;
mod audit_names;
mod audit_order;
mod audit_own;
mod audit_random;
mod audit_short;
mod audit_tags;
mod audit_texts;
mod audit_wide;
mod bench;
mod bench_audit;
mod bench_listing;
mod bench_literals;
mod bench_nodes;
mod bench_sessions;
mod bench_table;
mod bench_turns;
mod bench_writer;
mod book;
mod book_call;
mod buffers;
mod calls;
mod clashes;
mod clashing_books;
mod damaged_images;
mod declared_once;
mod forests;
mod image_places;
mod landed_images;
mod library;
mod listing;
mod listing_limits;
mod listing_shapes;
mod lists;
mod literal_books;
mod literal_shapes;
mod literal_tours;
mod made_books;
mod made_costly;
mod made_growths;
mod made_literals;
mod made_names;
mod made_rules;
mod made_sessions;
mod made_splits;
mod made_symbols;
mod made_terms;
mod made_turns;
mod negatives;
mod nodes;
mod nodes_books;
mod nodes_call;
mod nodes_lengths;
mod nodes_library;
mod nodes_limits;
mod nodes_random;
mod nodes_shapes;
mod nodes_terms;
mod nodes_trees;
mod print_call;
mod printed;
mod printing;
mod random_calls;
mod random_inputs;
mod references;
mod referring;
mod sane;
mod scratch_bytes;
mod scratch_calls;
mod scratch_cases;
mod scratches;
mod script;
mod seen;
mod session_books;
mod session_images;
mod session_library;
mod session_literals;
mod session_names;
mod session_shapes;
mod session_tours;
mod sessions;
mod shapes;
mod stranger_shapes;
mod strangers;
mod strict;
mod strict_lists;
mod strict_prints;
mod symbol_groups;
mod tally;
mod timing;
mod turn_books;
mod turn_call;
mod turn_edges;
mod turn_images;
mod turn_lists;
mod turns;
mod turns_library;
mod writer;
mod writer_books;
mod writer_call;
mod writer_edges;
mod writer_events;
mod writer_library;
mod writer_limits;
mod writer_lists;
mod writer_met;
mod writer_names;
mod writer_random;
mod writer_terms;

use std::process::ExitCode;
use std::sync::atomic::{AtomicUsize, Ordering};
use std::thread;
use tally::Tally;

/// What is compared, part by part.
const PARTS: [fn(&mut Tally); 19] = [
    book::run,
    symbol_groups::run,
    scratches::run,
    references::run,
    printing::run,
    listing::run,
    sessions::run,
    session_images::run,
    session_tours::run,
    session_literals::run,
    session_names::run,
    turns::run,
    negatives::run,
    strict_lists::run,
    strangers::run,
    nodes::run,
    writer::run,
    audit::run,
    script::run,
];

/// As many parts run at once, each on a stack as large as a program's.
const AT_ONCE: usize = 2;
const STACK: usize = 8 << 20;

/// Runs parts, each the next that no one else has begun.
fn run_parts(next: &AtomicUsize, one_of: usize) -> Tally {
    let mut tally = Tally::new(one_of);
    while let Some(part) = PARTS.get(next.fetch_add(1, Ordering::Relaxed)) {
        part(&mut tally);
    }
    tally
}

fn compare(one_of: usize) -> Tally {
    let next = AtomicUsize::new(0);
    thread::scope(|scope| {
        let run = || {
            thread::Builder::new()
                .stack_size(STACK)
                .spawn_scoped(scope, || run_parts(&next, one_of))
                .expect("a thread")
        };
        let running: Vec<_> = (0..AT_ONCE).map(|_| run()).collect();
        let mut tally = Tally::new(one_of);
        for thread in running {
            tally.add(thread.join().expect("a part that ends"));
        }
        tally
    })
}

fn main() -> ExitCode {
    let word = std::env::args().nth(1);
    let one_of = match word.as_deref() {
        None => 1,
        Some("tenth") => 10,
        Some("bench") => {
            bench::run();
            return ExitCode::SUCCESS;
        }
        Some(word) => {
            eprintln!("compare: {word} is neither tenth nor bench");
            return ExitCode::FAILURE;
        }
    };
    if compare(one_of).close() {
        ExitCode::SUCCESS
    } else {
        ExitCode::FAILURE
    }
}
