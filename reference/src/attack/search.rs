//! Looks for values under which a goal's premises are true and the goal is
//! not.

use crate::attack::evaluation::{values, Evaluation, Value, FUNCTION_CHOICES};
use crate::attack::meaning::{read, Goal, Plan};
use crate::attack::sorts::{agree, sort};
use crate::attack::terms::{Sort, Term};

/// How many times a goal and its premises are worked out.
const BUDGET: usize = 20_000;

/// Why a goal must never be proved.
#[derive(Clone, Copy, Debug, PartialEq, Eq)]
pub enum Never {
    HasCounterexample,
    /// It, or a premise of it, breaks the rules of sorts, or is no term.
    HasNoMeaning,
}

/// The goals of a text that must never be proved. Nothing where the text is no
/// plan: then none of them may.
pub fn never_proved(text: &str) -> Option<Vec<(String, Never)>> {
    let plan = read(text)?;
    let never = |goal: &Goal| Some((goal.name.clone(), judged(&plan, goal)?));
    Some(plan.goals.iter().filter_map(never).collect())
}

fn judged(plan: &Plan, goal: &Goal) -> Option<Never> {
    let premises = plan.premises(goal);
    let says = |term: &&Term| sort(plan, term).is_some_and(|sort| agree(sort, Sort::Bool));
    if !premises.iter().all(says) || !says(&&goal.term) {
        return Some(Never::HasNoMeaning);
    }
    let is_found = !plan.has_axioms && Search::new(plan, premises, &goal.term).goes_on(0);
    is_found.then_some(Never::HasCounterexample)
}

/// What gets a value.
#[derive(Clone, Copy, PartialEq, Eq)]
enum Open {
    Constant(usize),
    Literal(usize),
    Function(usize),
}

struct Search<'p> {
    evaluation: Evaluation<'p>,
    premises: Vec<&'p Term>,
    goal: &'p Term,
    open: Vec<Open>,
    budget: usize,
}

impl<'p> Search<'p> {
    fn new(plan: &'p Plan, premises: Vec<&'p Term>, goal: &'p Term) -> Search<'p> {
        let mut open = Vec::new();
        premises
            .iter()
            .for_each(|premise| add_open(premise, &mut open));
        add_open(goal, &mut open);
        // Functions first: without them little is known.
        open.sort_by_key(|open| !matches!(open, Open::Function(_)));
        Search {
            evaluation: Evaluation {
                plan,
                constants: vec![Value::Unknown; plan.constants.len()],
                literals: vec![Value::Unknown; plan.literals.len()],
                functions: vec![None; plan.functions.len()],
            },
            premises,
            goal,
            open,
            budget: BUDGET,
        }
    }

    /// Whether a counterexample is found with the values so far, the open ones
    /// from a place on being free.
    fn goes_on(&mut self, from: usize) -> bool {
        if self.budget == 0 {
            return false;
        }
        self.budget -= 1;
        let mut is_settled = true;
        for premise in &self.premises {
            match self.evaluation.value(premise) {
                Value::Boolean(true) => {}
                Value::Boolean(false) => return false,
                _ => is_settled = false,
            }
        }
        match self.evaluation.value(self.goal) {
            Value::Boolean(true) => false,
            Value::Boolean(false) if is_settled => true,
            _ => self.tries(from),
        }
    }

    fn tries(&mut self, place: usize) -> bool {
        let plan = self.evaluation.plan;
        match self.open.get(place) {
            None => false,
            Some(Open::Constant(constant)) => {
                let constant = *constant;
                let found = values(plan.constants[constant].1).iter().any(|value| {
                    self.evaluation.constants[constant] = *value;
                    self.goes_on(place + 1)
                });
                self.evaluation.constants[constant] = Value::Unknown;
                found
            }
            Some(Open::Literal(literal)) => {
                let literal = *literal;
                let found = values(plan.literals[literal].1).iter().any(|value| {
                    self.evaluation.literals[literal] = *value;
                    self.goes_on(place + 1)
                });
                self.evaluation.literals[literal] = Value::Unknown;
                found
            }
            Some(Open::Function(function)) => {
                let function = *function;
                let found = (0..FUNCTION_CHOICES).any(|choice| {
                    self.evaluation.functions[function] = Some(choice);
                    self.goes_on(place + 1)
                });
                self.evaluation.functions[function] = None;
                found
            }
        }
    }
}

/// All that a term has, in the order of its text.
fn add_open(term: &Term, open: &mut Vec<Open>) {
    let found = match term {
        Term::Constant(constant) => Some(Open::Constant(*constant)),
        Term::Literal(literal) => Some(Open::Literal(*literal)),
        Term::Apply(function, _) => Some(Open::Function(*function)),
        _ => None,
    };
    open.extend(found.filter(|found| !open.contains(found)));
    term.children()
        .iter()
        .for_each(|child| add_open(child, open));
}
