//! What an accepted move or ask had to deal with, so that a comparison can
//! tell what it never met. The kinds of the terms are in `shapes`.

use crate::image_places::{level, AXIOMS, FUNCTIONS};
use crate::shapes::visit;
use leskofar_reference::book_test::MOST_DEPTH;
use leskofar_reference::image::Kind;
use leskofar_reference::lower::{custom_literal_to_sexpr_name, to_sexpr, TAG};
use leskofar_reference::program::{Program, RExpr, ROperator};
use leskofar_reference::sexpr::SExprPrintConfig;
use leskofar_reference::sink::Sink;
use leskofar_reference::stack::Level;
use std::collections::{BTreeMap, BTreeSet};

const AXIOM_SENT: &str = "axiom sent";
const CYCLE: &str = "functions in a cycle";
const BOUND_AND_FREE: &str = "constant bound and free";
const EQUAL_TEXT: &str = "literals of equal text";
const EQUAL_SIBLINGS: &str = "equal siblings";
const DEEPEST: &str = "deepest node";
const DEEPEST_GOAL: &str = "goal declared below the deepest node";

pub const SESSION_SHAPES: [&str; 7] = [
    AXIOM_SENT,
    CYCLE,
    BOUND_AND_FREE,
    EQUAL_TEXT,
    EQUAL_SIBLINGS,
    DEEPEST,
    DEEPEST_GOAL,
];

/// An accepted move or ask.
pub struct Travelled<'t, 'b> {
    pub program: &'t Program<'b>,
    /// The functions that their own axioms lead back to.
    pub cyclic: &'t BTreeSet<usize>,
    pub from: u32,
    pub to: u32,
    pub goal: Option<u32>,
    pub image: &'t [u8],
    /// What is live afterwards.
    pub levels: &'t [Level],
}

impl Travelled<'_, '_> {
    /// Visits the shapes of the call and of every term on the way.
    pub fn visit(&self, see: &mut impl FnMut(&'static str)) {
        let program = self.program;
        let path = program.path(self.to as usize);
        let on_the_way = path.iter().filter_map(|node| program.node(*node));
        let terms = on_the_way.map(|node| node.expr);
        let mut names = Names::default();
        for term in terms.chain(self.goal.map(|goal| goal as usize)) {
            visit(program, term, see);
            names.add(program, term, &mut Vec::new());
        }
        let is_marked = |place: usize| level(Kind::Wide, self.image, place) != 0;
        let is_declared = |function: &usize| is_marked(FUNCTIONS.start + function);
        let depth = path.len();
        let shapes = [
            (AXIOM_SENT, AXIOMS.into_iter().any(is_marked)),
            (CYCLE, self.cyclic.iter().any(is_declared)),
            (BOUND_AND_FREE, !names.bound.is_disjoint(&names.free)),
            (EQUAL_TEXT, names.has_equal_text),
            (EQUAL_SIBLINGS, self.between_equal_siblings()),
            (DEEPEST, depth == MOST_DEPTH),
            (
                DEEPEST_GOAL,
                depth == MOST_DEPTH
                    && self.goal.is_some()
                    && !self.levels[MOST_DEPTH + 1].is_empty(),
            ),
        ];
        for (shape, is_met) in shapes {
            if is_met {
                see(shape);
            }
        }
    }

    fn between_equal_siblings(&self) -> bool {
        let [from, to] = [self.from, self.to].map(|node| self.program.node(node as usize));
        let (Some(from), Some(to)) = (from, to) else {
            return false;
        };
        self.from != self.to
            && from.parent == to.parent
            && printed(self.program, from.expr) == printed(self.program, to.expr)
    }
}

fn printed(program: &Program, term: usize) -> Vec<u8> {
    let mut sink = Sink::unlimited();
    to_sexpr(program, term, 0).print(SExprPrintConfig::ONE_LINE, &mut sink);
    sink.take()
}

/// The constants and literals of some terms.
#[derive(Default)]
pub struct Names<'b> {
    pub bound: BTreeSet<usize>,
    pub free: BTreeSet<usize>,
    /// The text of each literal's name, with the part before the type.
    literals: BTreeMap<Vec<u8>, &'b [u8]>,
    has_equal_text: bool,
}

impl<'b> Names<'b> {
    pub fn add(&mut self, program: &Program<'b>, term: usize, binders: &mut Vec<usize>) {
        match &program.terms[term] {
            RExpr::Id(v) if binders.contains(v) => _ = self.bound.insert(*v),
            RExpr::Id(v) => _ = self.free.insert(*v),
            RExpr::CustomLiteral { s, typ } if *s != TAG => {
                let name = custom_literal_to_sexpr_name(program, s, *typ);
                let earlier = self.literals.insert(name, s);
                self.has_equal_text |= earlier.is_some_and(|earlier| earlier != *s);
            }
            _ => {}
        }
        let outer = binders.len();
        match &program.terms[term] {
            RExpr::LetExpr { v, .. } => binders.push(*v),
            RExpr::QuantifierExpr { vv, .. } => binders.extend(vv),
            _ => {}
        }
        for child in program.children(term) {
            self.add(program, child, binders);
        }
        binders.truncate(outer);
    }
}

/// The functions that their own axioms lead back to.
pub fn cyclic(program: &Program) -> BTreeSet<usize> {
    let next: Vec<BTreeSet<usize>> = program
        .functions
        .iter()
        .map(|function| {
            let axioms = function.explained_by.iter();
            let terms = axioms.filter_map(|axiom| program.axioms[*axiom].term);
            terms.flat_map(|term| applied(program, term)).collect()
        })
        .collect();
    let leads_back = |function: &usize| {
        let mut reached = BTreeSet::new();
        let mut open = vec![*function];
        while let Some(at) = open.pop() {
            open.extend(next[at].iter().filter(|to| reached.insert(**to)));
        }
        reached.contains(function)
    };
    (0..next.len()).filter(leads_back).collect()
}

/// The functions that a term applies.
pub fn applied(program: &Program, term: usize) -> Vec<usize> {
    let mut functions: Vec<usize> = match &program.terms[term] {
        RExpr::FuncAppl {
            op: ROperator::UserDefinedFunction(function),
            ..
        } => vec![*function],
        _ => vec![],
    };
    for child in program.children(term) {
        functions.extend(applied(program, child));
    }
    functions
}
