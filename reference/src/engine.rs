//! The engine as the Dafny bodies have it (Solvers.dfy and RSolver.dfy): sets
//! of markers and names, and copies of both in each stack item. It knows no
//! levels and no term numbers; the session is compared with it.

use crate::commands::{CMD_CHECK_SAT, CMD_POP, CMD_PUSH};
use crate::program::Program;
use crate::sexpr::SExpr;
use crate::sink::Sink;
use crate::walk::{DeclarationMarker, Declarations, Walk};
use std::collections::HashSet;
use std::rc::Rc;

/// The two sets of a solver state. Names are shared, since each stack item
/// has its own copy of the set.
#[derive(Clone, Default)]
pub struct Sets {
    declarations: HashSet<DeclarationMarker>,
    additional_declared_names: HashSet<Rc<[u8]>>,
}

impl Declarations for Sets {
    fn is_declared(&self, marker: DeclarationMarker) -> bool {
        self.declarations.contains(&marker)
    }

    fn add(&mut self, marker: DeclarationMarker) {
        self.declarations.insert(marker);
    }

    fn is_name_declared(&self, name: &[u8]) -> bool {
        self.additional_declared_names.contains(name)
    }

    fn add_name(&mut self, name: &[u8], _term: usize) {
        self.additional_declared_names.insert(Rc::from(name));
    }

    fn count(&self) -> u64 {
        (self.declarations.len() + self.additional_declared_names.len()) as u64
    }
}

/// The memo is a node number; the sets are those from before the push.
#[derive(Clone)]
struct StackItem {
    memo: usize,
    sets: Sets,
}

/// `REngine` with its `SolverState`.
pub struct REngine<'p, 'b> {
    stack: Vec<StackItem>,
    walk: Walk<'p, 'b, Sets>,
}

impl<'p, 'b> REngine<'p, 'b> {
    pub fn new(program: &'p Program<'b>) -> REngine<'p, 'b> {
        REngine {
            stack: Vec::new(),
            walk: Walk::new(program, Sets::default(), Sink::unlimited()),
        }
    }

    /// A copy to try a call on; the original doesn't change.
    pub fn fork(&self) -> REngine<'p, 'b> {
        self.on(self.walk.program)
    }

    /// A copy on a program that begins with this one.
    pub fn on<'q, 'c>(&self, program: &'q Program<'c>) -> REngine<'q, 'c> {
        REngine {
            stack: self.stack.clone(),
            walk: Walk::new(program, self.walk.declared.clone(), Sink::unlimited()),
        }
    }

    /// What was sent since the last time.
    pub fn take_sent(&mut self) -> Vec<u8> {
        self.walk.sent.take()
    }

    /// The Dafny `expect axiom in axiomMap` would have failed.
    pub fn missing_axiom(&self) -> bool {
        self.walk.missing_axiom
    }

    /// `Prove` up to its `CheckSat`.
    pub fn prove_until_check_sat(&mut self, context: usize, expr: usize) {
        self.set_context(context);
        // The memo is irrelevant and will soon be popped off again.
        self.push(context);
        self.walk.declare_symbols_of(expr);
        let negated = SExpr::negation(self.walk.lowered(expr));
        self.walk.send(CMD_PUSH);
        self.walk.add_assumption(&negated);
        self.walk.send(CMD_CHECK_SAT);
    }

    /// The end of `Prove`, after the reply and the model.
    pub fn prove_end(&mut self) {
        self.walk.send(CMD_POP);
        self.pop();
    }

    pub fn set_context(&mut self, context: usize) {
        let mut memo_count = self.stack.len();
        // First, trim down memo length to be no greater than the context depth.
        while self.walk.program.depth(context) < memo_count {
            self.pop();
            memo_count -= 1;
        }
        self.adjust_context(context);
    }

    fn adjust_context(&mut self, context: usize) {
        let Some(contextx) = self.walk.program.node(context) else {
            return;
        };
        if self.stack.len() < contextx.depth {
            self.adjust_context(contextx.parent);
        } else if self.is_top_memo(context) {
            return;
        } else {
            self.pop();
            self.adjust_context(contextx.parent);
        }
        self.push(context);
        self.walk.declare_and_assume(contextx.expr);
    }

    fn is_top_memo(&self, memo: usize) -> bool {
        self.stack.last().is_some_and(|item| item.memo == memo)
    }

    fn push(&mut self, memo: usize) {
        self.walk.send(CMD_PUSH);
        self.stack.push(StackItem {
            memo,
            sets: self.walk.declared.clone(),
        });
    }

    fn pop(&mut self) {
        let item = self.stack.pop().expect("a pop needs a stack item");
        self.walk.send(CMD_POP);
        self.walk.declared = item.sets;
    }
}
