//! Books for turns: chains that declare at known levels.

use crate::image_places::{AXIOMS, CONSTANTS, FUNCTIONS, LITERALS, TYPES};
use leskofar_reference::book::INT;
use leskofar_reference::maker::Maker;

/// A chain whose nodes have their depths for numbers, a goal with a constant
/// that no node has, and the places and levels of what the nodes declare.
pub struct Chain {
    pub maker: Maker,
    pub goal: u32,
    pub goal_place: usize,
    declared: Vec<(usize, u16)>,
}

impl Chain {
    /// The levels of the node of a depth.
    pub fn levels(&self, depth: usize) -> Vec<(usize, u16)> {
        let is_above = |(_, level): &&(usize, u16)| usize::from(*level) <= depth;
        self.declared.iter().filter(is_above).copied().collect()
    }
}

/// A chain so deep, of which the nodes at the given depths have a constant each
/// and all others nothing to declare.
pub fn declaring(depth: usize, depths: impl IntoIterator<Item = usize>) -> Chain {
    let mut m = Maker::default();
    let depths: Vec<usize> = depths.into_iter().collect();
    let mut declared = Vec::new();
    for node in 1..=depth {
        let term = if depths.contains(&node) {
            let v = m.constant(&format!("v{node}"), INT);
            declared.push((CONSTANTS.start + v as usize, node as u16));
            m.id(v)
        } else {
            m.boolean(true)
        };
        m.context(node as u32 - 1, term);
    }
    with_goal(m, declared)
}

/// The same, but that each of these nodes declares one of every sort: a type, a
/// constant, a function, its axiom and a literal.
pub fn declaring_all(depth: usize, depths: &[usize]) -> Chain {
    let mut m = Maker::default();
    let mut declared = Vec::new();
    for node in 1..=depth {
        let term = if depths.contains(&node) {
            let typ = m.user_type(&format!("T{node}"));
            let v = m.constant(&format!("v{node}"), typ);
            let f = m.function(&format!("f{node}"), &[], typ);
            let truth = m.boolean(true);
            let axiom = m.axiom(Some(truth), &[f]);
            m.explained_by(f, &[axiom]);
            let literal = m.literal(&format!("l{node}"), typ);
            let args = [m.id(v), m.apply(f, &[]), literal];
            let places = [
                TYPES.start + m.types.len() - 1,
                CONSTANTS.start + v as usize,
                FUNCTIONS.start + f as usize,
                AXIOMS.start + axiom as usize,
                LITERALS.start + literal as usize,
            ];
            declared.extend(places.map(|place| (place, node as u16)));
            m.built_in("and", &args)
        } else {
            m.boolean(true)
        };
        m.context(node as u32 - 1, term);
    }
    with_goal(m, declared)
}

fn with_goal(mut m: Maker, declared: Vec<(usize, u16)>) -> Chain {
    let v = m.constant("goal", INT);
    let goal = m.id(v);
    Chain {
        maker: m,
        goal,
        goal_place: CONSTANTS.start + v as usize,
        declared,
    }
}
