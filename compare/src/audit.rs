//! Audits of scripts against the reference: own texts, those of another writer,
//! changed and damaged ones, lines of every sort, every border.

use crate::audit_call::{Outcome, REFUSALS, VERDICTS};
use crate::tally::{Met, Tally};
use crate::{
    audit_edges, audit_lines, audit_names, audit_order, audit_random, audit_short, audit_tags,
    audit_texts,
};

/// Groups of audits, and what all of them met.
pub struct Audits<'t> {
    tally: &'t mut Tally,
    met: Met<Outcome>,
}

impl Audits<'_> {
    /// How many of so many random inputs are tried.
    pub fn share(&self, inputs: usize) -> usize {
        self.tally.share(inputs)
    }

    /// Runs a group, which tells what it met.
    pub fn group(
        &mut self,
        name: &str,
        run: impl FnOnce(&mut Met<Outcome>) -> Result<String, String>,
    ) {
        let mut met = Met::default();
        self.tally.group(name, || run(&mut met));
        self.met.add_all(&met);
    }
}

pub fn run(tally: &mut Tally) {
    let mut audits = Audits {
        tally,
        met: Met::default(),
    };
    audit_lines::run(&mut audits);
    audit_short::run(&mut audits);
    audit_edges::run(&mut audits);
    audit_texts::run(&mut audits);
    audit_names::run(&mut audits);
    audit_tags::run(&mut audits);
    audit_order::run(&mut audits);
    audit_random::run(&mut audits);
    let Audits { tally, met } = audits;
    tally.group("audit, every answer and every refusal", || {
        met.only(&[&VERDICTS[..], &REFUSALS].concat())
    });
}
