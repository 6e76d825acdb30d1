//! The items with terms, in an order that records terms, axioms and nodes as
//! the book has them: an axiom or node whose turn has not come when its term's
//! has, gets the term by name later.

use crate::plan::handles;
use crate::plan::layout::Piece;
use crate::plan::term_writer::TermWriter;
use crate::plan::words::{string, text_of, AXIOM, EXPLAINS_KEY, NODE, TERM, TRACE_KEY};

pub fn terms_axioms_and_nodes(writer: &TermWriter) -> Vec<Piece> {
    let mut order = ItemOrder {
        writer,
        is_item: vec![false; writer.program.terms.len()],
        next_axiom: 0,
        next_node: FIRST_NODE,
        items: Vec::new(),
    };
    order.add_what_needs_no_term();
    for term in 0..writer.program.terms.len() {
        if !writer.nesting.nested[term] {
            order.add_term(term);
            order.add_what_needs_no_term();
        }
    }
    order.items
}

/// The first node below the root.
const FIRST_NODE: usize = 1;

struct ItemOrder<'w, 'p, 'b> {
    writer: &'w TermWriter<'p, 'b>,
    /// The terms that are items above.
    is_item: Vec<bool>,
    next_axiom: usize,
    next_node: usize,
    items: Vec<Piece>,
}

impl ItemOrder<'_, '_, '_> {
    fn add_term(&mut self, term: usize) {
        let piece = self.writer.term(term);
        let must_be_named = self.writer.nesting.named.contains(&term);
        if !must_be_named && self.term_of_next_axiom() == Some(Some(term)) {
            self.add_axiom(Some(piece));
        } else if !must_be_named && self.term_of_next_node() == Some(term) {
            self.add_node(piece);
        } else {
            let item = vec![Piece::word(TERM), self.writer.name(term), piece];
            self.items.push(Piece::row(item));
            self.is_item[term] = true;
        }
    }

    /// Axioms and nodes whose turn it is, and whose term is an item above or
    /// none.
    fn add_what_needs_no_term(&mut self) {
        while let Some(term) = self.term_of_next_axiom() {
            if term.is_some_and(|term| !self.is_item[term]) {
                break;
            }
            self.add_axiom(term.map(|term| self.writer.name(term)));
        }
        while let Some(term) = self.term_of_next_node().filter(|term| self.is_item[*term]) {
            self.add_node(self.writer.name(term));
        }
    }

    /// None if all axioms are there.
    fn term_of_next_axiom(&self) -> Option<Option<usize>> {
        let axiom = self.writer.program.axioms.get(self.next_axiom)?;
        Some(axiom.term)
    }

    fn add_axiom(&mut self, term: Option<Piece>) {
        let axiom = &self.writer.program.axioms[self.next_axiom];
        let mut parts = vec![
            Piece::word(AXIOM),
            Piece::word(handles::axiom(self.next_axiom)),
        ];
        parts.extend(term);
        if !axiom.explains.is_empty() {
            let functions = &self.writer.handles.functions;
            let explained = axiom.explains.iter().map(|f| functions[*f].symbol.as_str());
            parts.push(Piece::attribute(EXPLAINS_KEY, Piece::words(explained)));
        }
        self.items.push(Piece::row(parts));
        self.next_axiom += 1;
    }

    /// None if all nodes are there.
    fn term_of_next_node(&self) -> Option<usize> {
        let nodes = self.writer.program.nodes();
        let node = nodes.get(self.next_node - FIRST_NODE)?;
        Some(node.expr)
    }

    fn add_node(&mut self, term: Piece) {
        let node = &self.writer.program.nodes()[self.next_node - FIRST_NODE];
        let mut parts = vec![
            Piece::word(NODE),
            Piece::word(handles::node(self.next_node)),
            Piece::word(handles::node(node.parent)),
            term,
        ];
        if let Some(trace) = node.trace_string {
            let trace = Piece::word(string(&text_of(trace)));
            parts.push(Piece::attribute(TRACE_KEY, trace));
        }
        self.items.push(Piece::row(parts));
        self.next_node += 1;
    }
}
