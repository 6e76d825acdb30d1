//! Truth by brute force: a book's own terms, evaluated for every choice of
//! its constants.

use leskofar_reference::chains::BOXES;
use leskofar_reference::program::{Program, RExpr, ROperator};
use std::collections::{BTreeSet, HashMap};

#[derive(Clone, Copy, Debug, PartialEq, Eq)]
enum Value {
    Bool(bool),
    Int(i64),
}

type Choice = HashMap<usize, Value>;

/// A number that no box has, farther off than any limit.
const FAR: i64 = 10_000;

/// The boxes, as many on the other side of zero, their neighbours and a number
/// far off: enough to tell whether a limit on a chain of boxes holds.
fn domain() -> impl Iterator<Item = i64> {
    (-BOXES.end() - 1..=BOXES.end() + 1).chain([FAR])
}

/// No choice has all premises of the node and not the goal.
pub fn follows(program: &Program, node: usize, goal: usize) -> bool {
    let premises: Vec<usize> = program
        .path(node)
        .iter()
        .filter_map(|node| Some(program.node(*node)?.expr))
        .collect();
    let mut constants = Vec::new();
    for term in [goal].iter().chain(&premises) {
        for constant in free_constants(program, *term) {
            if !constants.contains(&constant) {
                constants.push(constant);
            }
        }
    }
    let search = Search {
        program,
        premises,
        goal,
        constants,
    };
    !search.finds_counterexample(0, &mut Choice::new())
}

struct Search<'p, 'b> {
    program: &'p Program<'b>,
    premises: Vec<usize>,
    goal: usize,
    /// The goal's first, so that most choices end early.
    constants: Vec<usize>,
}

impl Search<'_, '_> {
    /// `chosen` of the constants have their values.
    fn finds_counterexample(&self, chosen: usize, choice: &mut Choice) -> bool {
        let truth = |term: &usize| evaluate(self.program, *term, choice);
        let is_false = |term: &usize| truth(term) == Some(Value::Bool(false));
        if truth(&self.goal) == Some(Value::Bool(true)) || self.premises.iter().any(is_false) {
            return false;
        }
        let Some(constant) = self.constants.get(chosen) else {
            return true;
        };
        let finds = domain().any(|number| {
            choice.insert(*constant, Value::Int(number));
            self.finds_counterexample(chosen + 1, choice)
        });
        choice.remove(constant);
        finds
    }
}

fn free_constants(program: &Program, term: usize) -> BTreeSet<usize> {
    let mut free = BTreeSet::new();
    for child in program.children(term) {
        free.extend(free_constants(program, child));
    }
    match &program.terms[term] {
        RExpr::Id(v) => {
            free.insert(*v);
        }
        RExpr::LetExpr { v, .. } => {
            free.remove(v);
        }
        _ => {}
    }
    free
}

/// None where a constant without a value matters.
fn evaluate(program: &Program, term: usize, choice: &Choice) -> Option<Value> {
    match &program.terms[term] {
        RExpr::Boolean(b) => Some(Value::Bool(*b)),
        RExpr::Integer(x) => Some(Value::Int(*x)),
        RExpr::Id(v) => choice.get(v).copied(),
        RExpr::IfThenElse { guard, thn, els } => match evaluate(program, *guard, choice)? {
            Value::Bool(true) => evaluate(program, *thn, choice),
            _ => evaluate(program, *els, choice),
        },
        RExpr::LetExpr { v, rhs, body } => {
            let mut inner = choice.clone();
            inner.insert(*v, evaluate(program, *rhs, choice)?);
            evaluate(program, *body, &inner)
        }
        RExpr::FuncAppl { op, args } => {
            let values: Option<Vec<Value>> = args
                .iter()
                .map(|arg| evaluate(program, *arg, choice))
                .collect();
            match op {
                ROperator::BuiltInOperator(name) => Some(operate(name, &values?)),
                ROperator::UserDefinedFunction(f) => apply(program, *f, &values?),
            }
        }
        RExpr::CustomLiteral { .. } | RExpr::QuantifierExpr { .. } => {
            panic!("no truth by brute force")
        }
    }
}

fn operate(name: &[u8], args: &[Value]) -> Value {
    use Value::{Bool, Int};
    match (name, args) {
        (b"=", [a, b]) => Bool(a == b),
        (b"<", [Int(a), Int(b)]) => Bool(a < b),
        (b"<=", [Int(a), Int(b)]) => Bool(a <= b),
        (b"-", [Int(a), Int(b)]) => Int(a - b),
        (b"and", [Bool(a), Bool(b)]) => Bool(*a && *b),
        (b"+", numbers) => Int(numbers
            .iter()
            .map(|number| match number {
                Int(x) => *x,
                Bool(_) => panic!("a sum of truths"),
            })
            .sum()),
        _ => panic!("no such operator here"),
    }
}

/// The function's one axiom is `(forall VARIABLES (= (f VARIABLES) RHS))`.
fn apply(program: &Program, function: usize, args: &[Value]) -> Option<Value> {
    let [axiom] = program.functions[function].explained_by[..] else {
        panic!("the function has one axiom");
    };
    let RExpr::QuantifierExpr { vv, body, .. } = &program.terms[program.axioms[axiom].term?] else {
        panic!("the axiom is a quantifier");
    };
    let [_, rhs] = program.children(*body)[..] else {
        panic!("its body is an equation");
    };
    let inner: Choice = vv.iter().copied().zip(args.iter().copied()).collect();
    evaluate(program, rhs, &inner)
}
