//! What a plan's text says, by docs/PLAN.md. Names are the plan's own: what
//! the solver sees of them changes nothing of what is meant.

use crate::attack::readable::{is_simple, pieces, Piece};
use crate::attack::terms::{Constant, Sort, Term};
use std::collections::HashMap;

/// The node above all others.
const ROOT: &str = "root";

#[derive(Default)]
pub struct Plan {
    /// Each with the name that the solver sees.
    pub(super) types: Vec<(String, String)>,
    pub constants: Vec<(String, Sort)>,
    /// Each with its inputs and its result.
    pub functions: Vec<(String, Vec<Sort>, Sort)>,
    pub literals: Vec<(String, Sort)>,
    pub(super) terms: HashMap<String, Term>,
    nodes: Vec<Node>,
    pub goals: Vec<Goal>,
    /// Axioms are not worked out: they may say more than what is known here.
    pub has_axioms: bool,
}

struct Node {
    name: String,
    /// Its place, if it does not hang below the root.
    parent: Option<usize>,
    term: Term,
}

pub struct Goal {
    pub name: String,
    node: Option<usize>,
    pub term: Term,
}

/// A text's plan; nothing where the text is none.
pub fn read(text: &str) -> Option<Plan> {
    let items = pieces(text)?;
    let items: Vec<(&str, &[Piece])> = items.iter().map(item).collect::<Option<_>>()?;
    let mut plan = Plan::default();
    for (word, rest) in &items {
        if *word == "type" {
            let name = name(rest.first()?)?;
            plan.types.push((name.into(), seen(name, &rest[1..])?));
        }
    }
    for (word, rest) in &items {
        plan.declare(word, rest)?;
    }
    for (word, rest) in &items {
        plan.say(word, rest)?;
    }
    Some(plan)
}

fn item(piece: &Piece) -> Option<(&str, &[Piece])> {
    let (word, rest) = list(piece)?.split_first()?;
    Some((name(word)?, rest))
}

pub(super) fn list(piece: &Piece) -> Option<&[Piece]> {
    match piece {
        Piece::List(list) => Some(list),
        _ => None,
    }
}

pub(super) fn name(piece: &Piece) -> Option<&str> {
    match piece {
        Piece::Name(name) => Some(name),
        _ => None,
    }
}

/// The name that the solver sees, by an item's attributes.
fn seen(name: &str, attributes: &[Piece]) -> Option<String> {
    match attributes {
        [] if is_simple(name) => Some(name.into()),
        [] => Some(format!("|{name}|")),
        [Piece::Keyword(key), Piece::Text(seen)] if key == ":name" => Some(seen.clone()),
        _ => None,
    }
}

impl Plan {
    fn declare(&mut self, word: &str, rest: &[Piece]) -> Option<()> {
        match (word, rest) {
            ("constant", [name_of, sort, attributes @ ..]) => {
                let name = name(name_of)?;
                seen(name, attributes)?;
                self.constants.push((name.into(), self.sort(sort)?));
            }
            ("function", [name_of, inputs, sort, attributes @ ..]) => {
                let sorts = list(inputs)?.iter().map(|input| self.sort(input));
                let inputs = sorts.collect::<Option<_>>()?;
                self.has_axioms |= attributes.contains(&Piece::Keyword(":explained-by".into()));
                let function = (name(name_of)?.into(), inputs, self.sort(sort)?);
                self.functions.push(function);
            }
            _ => {}
        }
        Some(())
    }

    /// Terms, nodes and goals, which know what stands above them.
    fn say(&mut self, word: &str, rest: &[Piece]) -> Option<()> {
        match (word, rest) {
            ("term", [name_of, term]) => {
                let term = self.term(term)?;
                self.terms.insert(name(name_of)?.into(), term);
            }
            ("node", [name_of, parent, term, attributes @ ..]) => {
                let is_trace = |key: &str| key == ":trace";
                match attributes {
                    [] => {}
                    [Piece::Keyword(key), Piece::Text(_)] if is_trace(key) => {}
                    _ => return None,
                }
                let node = Node {
                    name: name(name_of)?.into(),
                    parent: self.node(name(parent)?)?,
                    term: self.term(term)?,
                };
                self.nodes.push(node);
            }
            ("goal", [name_of, node, term]) => {
                let goal = Goal {
                    name: name(name_of)?.into(),
                    node: self.node(name(node)?)?,
                    term: self.term(term)?,
                };
                self.goals.push(goal);
            }
            ("type" | "constant" | "function", _) => {}
            ("axiom" | "pattern" | "letters" | "lists", _) => {}
            _ => return None,
        }
        Some(())
    }

    /// What holds where a goal is asked.
    pub fn premises(&self, goal: &Goal) -> Vec<&Term> {
        let mut premises = Vec::new();
        let mut node = goal.node;
        while let Some(place) = node {
            premises.push(&self.nodes[place].term);
            node = self.nodes[place].parent;
        }
        premises.reverse();
        premises
    }

    fn node(&self, name: &str) -> Option<Option<usize>> {
        if name == ROOT {
            return Some(None);
        }
        self.nodes
            .iter()
            .position(|node| node.name == name)
            .map(Some)
    }

    pub(super) fn sort(&self, piece: &Piece) -> Option<Sort> {
        match name(piece)? {
            "Bool" => Some(Sort::Bool),
            "Int" => Some(Sort::Int),
            name => {
                let place = self.types.iter().position(|(known, _)| known == name);
                place.map(Sort::User)
            }
        }
    }

    pub(super) fn constant(&self, name: &str) -> Option<Constant> {
        self.constants.iter().position(|(known, _)| known == name)
    }

    pub(super) fn function(&self, name: &str) -> Option<usize> {
        self.functions.iter().position(|(known, ..)| known == name)
    }
}
