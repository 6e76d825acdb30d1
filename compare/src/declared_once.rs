//! The reader of strangers beside a list of calls: on a book that prints apart
//! every symbol of a live assertion is declared once, earlier, and as itself.

use crate::stranger_shapes::LookedAt;
use crate::tally::Met;
use leskofar_reference::live_lines::{Command, LiveLines};
use leskofar_reference::program::Program;
use leskofar_reference::strangers::{Look, Moment};
use leskofar_reference::told_apart::prints_apart;
use std::collections::HashSet;

/// How much was looked at of books that print apart, and what it had.
#[derive(Default)]
pub struct Looked {
    moments: usize,
    assertions: usize,
    symbols: usize,
    pub shapes: Met<&'static str>,
}

impl Looked {
    /// Fails if no symbol was looked at.
    pub fn said(&self) -> Result<String, String> {
        let [moments, assertions, symbols] = [self.moments, self.assertions, self.symbols];
        let said = format!("{symbols} symbols of {assertions} assertions at {moments} moments");
        if symbols > 0 {
            Ok(said)
        } else {
            Err(said)
        }
    }
}

/// What a list of calls has live, and the declarations that it had.
pub struct DeclaredOnce {
    prints_apart: bool,
    live: LiveLines,
    gone: HashSet<Vec<u8>>,
}

impl DeclaredOnce {
    pub fn new(program: &Program) -> DeclaredOnce {
        DeclaredOnce {
            prints_apart: prints_apart(program),
            live: LiveLines::default(),
            gone: HashSet::new(),
        }
    }

    pub fn prints_apart(&self) -> bool {
        self.prints_apart
    }

    /// Goes on with a book that has grown.
    pub fn go_on(&mut self, program: &Program) {
        self.prints_apart = prints_apart(program);
    }

    pub fn hear(&mut self, text: &[u8]) -> Result<(), String> {
        let before = self.declarations();
        self.live
            .hear(text)
            .map_err(|unheard| format!("{unheard:?} in {}", text.escape_ascii()))?;
        let now = self.declarations();
        self.gone.extend(before.difference(&now).cloned());
        Ok(())
    }

    fn declarations(&self) -> HashSet<Vec<u8>> {
        let lines = self.live.lines().iter();
        let declarations = lines.filter(|line| line.command != Command::Assert);
        declarations.map(|line| line.text.clone()).collect()
    }

    /// What is live for a node and an open question.
    pub fn look<'b>(&self, program: &Program<'b>, node: u32, goal: Option<u32>) -> Look<'b> {
        let moment = Moment {
            program,
            node: node as usize,
            goal: goal.map(|goal| goal as usize),
            live: &self.live,
        };
        moment.look()
    }

    /// The same where the book prints apart: a breach is an error.
    pub fn check(
        &self,
        program: &Program,
        node: u32,
        goal: Option<u32>,
        looked: &mut Looked,
    ) -> Result<(), String> {
        if !self.prints_apart {
            return Ok(());
        }
        let look = self.look(program, node, goal);
        if let Some(breach) = look.breaches.first() {
            return Err(format!("a stranger, {breach:?},"));
        }
        looked.moments += 1;
        looked.assertions += look.assertions.len();
        looked.symbols += look.symbols();
        let looked_at = LookedAt {
            program,
            live: &self.live,
            gone: &self.gone,
            look: &look,
        };
        looked_at.visit(goal.is_some(), &mut |shape| looked.shapes.add(shape));
        Ok(())
    }
}
