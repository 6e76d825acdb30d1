//! What is declared, level by level of the assertion stack.

use crate::smtlib::signatures::signature;
use std::collections::HashMap;

/// How many arguments something takes: at least, and at most.
pub type Arguments = (usize, Option<usize>);

/// Of `ite`: a guard and two branches.
const BRANCHING: usize = 3;

struct Declaration {
    arguments: usize,
    level: usize,
}

/// Names that are declared and live.
type Live = HashMap<Vec<u8>, Declaration>;

/// It starts with the theories Core and Ints, which no pop takes away, and
/// with one level.
pub struct Declared {
    /// Whether names are looked up at all.
    pub resolves: bool,
    /// How many levels stand above the first.
    level: usize,
    sorts: Live,
    functions: Live,
}

impl Default for Declared {
    fn default() -> Declared {
        Declared {
            resolves: true,
            level: 0,
            sorts: Live::new(),
            functions: Live::new(),
        }
    }
}

impl Declared {
    /// How many sorts a sort takes; None if there is no such sort.
    pub fn sort(&self, name: &[u8]) -> Option<usize> {
        if [&b"Bool"[..], b"Int"].contains(&name) {
            return Some(0);
        }
        self.sorts.get(name).map(|declared| declared.arguments)
    }

    /// None if there is no such function or constant.
    pub fn function(&self, name: &[u8]) -> Option<Arguments> {
        let exactly = |arguments| (arguments, Some(arguments));
        match name {
            b"true" | b"false" => Some(exactly(0)),
            b"ite" => Some(exactly(BRANCHING)),
            _ => match (signature(name), self.functions.get(name)) {
                (Some(operator), _) => Some((operator.least, operator.most)),
                (None, declared) => declared.map(|declared| exactly(declared.arguments)),
            },
        }
    }

    pub fn declare_sort(&mut self, name: &[u8], arguments: usize) {
        let level = self.level;
        self.sorts
            .insert(name.into(), Declaration { arguments, level });
    }

    pub fn declare_function(&mut self, name: &[u8], arguments: usize) {
        let level = self.level;
        self.functions
            .insert(name.into(), Declaration { arguments, level });
    }

    /// How many levels a pop may take away: all but the first.
    pub fn most_popped(&self) -> usize {
        self.level
    }

    /// How many levels a push may add.
    pub fn most_pushed(&self) -> usize {
        usize::MAX - self.level
    }

    pub fn push(&mut self, levels: usize) {
        self.level += levels;
    }

    /// What the levels declared goes with them.
    pub fn pop(&mut self, levels: usize) {
        self.level -= levels;
        let level = self.level;
        for live in [&mut self.sorts, &mut self.functions] {
            live.retain(|_, declared| declared.level <= level);
        }
    }
}
