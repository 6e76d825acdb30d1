//! The solver state as a session stores it: for each type, constant,
//! function, axiom and literal term the level where it was declared.

use crate::book::Section;
use crate::commands::{CMD_CHECK_SAT, CMD_POP, CMD_PUSH};
use crate::lower::custom_literal_to_sexpr_name;
use crate::program::{Program, RExpr, ROOT};
use crate::sexpr::SExpr;
use crate::sink::Sink;
use crate::walk::{DeclarationMarker, Declarations, Walk};

/// Where each section's places begin; a literal's place is its term's.
const TYPES_AT: usize = 0;
const CONSTANTS_AT: usize = TYPES_AT + Section::Types.most();
const FUNCTIONS_AT: usize = CONSTANTS_AT + Section::Constants.most();
const AXIOMS_AT: usize = FUNCTIONS_AT + Section::Functions.most();
const LITERALS_AT: usize = AXIOMS_AT + Section::Axioms.most();
/// The number of places.
pub const PLACES: usize = LITERALS_AT + Section::Terms.most();

pub type Level = u16;
/// The level of what is not declared.
const NOT_DECLARED: Level = 0;

#[derive(Clone, Debug, PartialEq, Eq)]
pub struct Levels(pub [Level; PLACES]);

impl Levels {
    pub const NONE: Levels = Levels([NOT_DECLARED; PLACES]);

    /// Forgets what was declared above a level.
    fn drop_above(&mut self, level: Level) {
        for place in self.0.iter_mut().filter(|place| **place > level) {
            *place = NOT_DECLARED;
        }
    }

    /// The levels of a fresh session after a move to `node`; None if that
    /// move is refused 9.
    pub fn fresh(program: &Program, node: usize) -> Option<Levels> {
        let mut mover = Mover::new(program, Levels::NONE, Sink::new(0));
        mover.move_between(ROOT, node);
        mover.outcome().map(|(levels, _)| levels)
    }
}

/// Levels, the names of the literal terms, and the present level.
struct LevelState {
    levels: Levels,
    literal_names: Vec<(usize, Vec<u8>)>,
    level: Level,
}

impl LevelState {
    fn new(program: &Program, levels: Levels) -> LevelState {
        let named = |(term, expr): (usize, &RExpr)| match expr {
            RExpr::CustomLiteral { s, typ } => {
                Some((term, custom_literal_to_sexpr_name(program, s, *typ)))
            }
            _ => None,
        };
        LevelState {
            levels,
            literal_names: program.terms.iter().enumerate().filter_map(named).collect(),
            level: 0,
        }
    }
}

impl Declarations for LevelState {
    fn is_declared(&self, marker: DeclarationMarker) -> bool {
        self.levels.0[place(marker)] != NOT_DECLARED
    }

    fn add(&mut self, marker: DeclarationMarker) {
        self.levels.0[place(marker)] = self.level;
    }

    /// Literals compare by name text, whichever term declared it.
    fn is_name_declared(&self, name: &[u8]) -> bool {
        self.literal_names.iter().any(|(term, declared)| {
            self.levels.0[LITERALS_AT + term] != NOT_DECLARED && declared == name
        })
    }

    fn add_name(&mut self, _name: &[u8], term: usize) {
        self.levels.0[LITERALS_AT + term] = self.level;
    }

    fn count(&self) -> u64 {
        let declared = self.levels.0.iter().filter(|level| **level != NOT_DECLARED);
        declared.count() as u64
    }
}

fn place(marker: DeclarationMarker) -> usize {
    match marker {
        DeclarationMarker::Type(decl) => TYPES_AT + decl,
        DeclarationMarker::Constant(v) => CONSTANTS_AT + v,
        DeclarationMarker::Function(func) => FUNCTIONS_AT + func,
        DeclarationMarker::Axiom(axiom) => AXIOMS_AT + axiom,
    }
}

/// Sends what calls send, on levels.
pub struct Mover<'p, 'b> {
    walk: Walk<'p, 'b, LevelState>,
}

impl<'p, 'b> Mover<'p, 'b> {
    pub fn new(program: &'p Program<'b>, levels: Levels, sent: Sink) -> Mover<'p, 'b> {
        Mover {
            walk: Walk::new(program, LevelState::new(program, levels), sent),
        }
    }

    /// The levels and the text, or None if an axiom was missing.
    pub fn outcome(self) -> Option<(Levels, Sink)> {
        (!self.walk.missing_axiom).then_some((self.walk.declared.levels, self.walk.sent))
    }

    /// Pops down to the deepest shared node, then pushes down the new path.
    pub fn move_between(&mut self, from: usize, to: usize) {
        let old = self.walk.program.path(from);
        let new = self.walk.program.path(to);
        let shared = old.iter().zip(&new).take_while(|(a, b)| a == b).count();
        for _ in shared..old.len() {
            self.walk.send(CMD_POP);
        }
        self.walk.declared.levels.drop_above(shared as Level);
        self.walk.declared.level = shared as Level;
        for node in &new[shared..] {
            let context = self.walk.program.node(*node).expect("a path has no root");
            self.push_level();
            self.walk.declare_and_assume(context.expr);
        }
    }

    /// The goal's two levels and the check. The levels stay the node's: what
    /// the goal declares is not stored.
    pub fn question(&mut self, goal: usize) {
        let of_node = self.walk.declared.levels.clone();
        self.push_level();
        self.walk.declare_symbols_of(goal);
        let negated = SExpr::negation(self.walk.lowered(goal));
        self.push_level();
        self.walk.add_assumption(&negated);
        self.walk.send(CMD_CHECK_SAT);
        self.walk.declared.levels = of_node;
    }

    fn push_level(&mut self) {
        self.walk.send(CMD_PUSH);
        self.walk.declared.level += 1;
    }
}
