//! Sorts, and the numbers of arguments, by SMT-LIB: a term that breaks them
//! means nothing.

use crate::attack::meaning::Plan;
use crate::attack::terms::{Operator, Sort, Term};

/// A term's sort; nothing if it has no meaning.
pub fn sort(plan: &Plan, term: &Term) -> Option<Sort> {
    let below: Vec<Sort> = term
        .children()
        .iter()
        .map(|child| sort(plan, child))
        .collect::<Option<_>>()?;
    match term {
        Term::Boolean(_) => Some(Sort::Bool),
        Term::Integer(_) | Term::Tag => Some(Sort::Int),
        Term::Constant(constant) => Some(plan.constants[*constant].1),
        Term::Literal(literal) => Some(plan.literals[*literal].1),
        Term::Apply(function, _) => {
            let (_, inputs, result) = &plan.functions[*function];
            let pairs = || inputs.iter().zip(&below);
            let is_good = inputs.len() == below.len() && pairs().all(|(a, b)| agree(*a, *b));
            is_good.then_some(*result)
        }
        Term::Operator(operator, _) => of_operator(*operator, &below),
        Term::Other(_) => Some(Sort::Any),
        Term::Nothing => None,
        Term::IfThenElse(_) => {
            let branches = &below[1..];
            let is_good = agree(below[0], Sort::Bool) && are_one(branches);
            is_good.then(|| known(branches))
        }
        Term::Let(constant, _) => agree(plan.constants[*constant].1, below[0]).then_some(below[1]),
        Term::Quantifier { .. } => agree(below[0], Sort::Bool).then_some(Sort::Bool),
    }
}

fn of_operator(operator: Operator, args: &[Sort]) -> Option<Sort> {
    let all = |sort| args.iter().all(|arg| agree(*arg, sort));
    let (is_good, result) = match operator {
        Operator::Equal | Operator::Distinct => (args.len() >= 2 && are_one(args), Sort::Bool),
        Operator::Implies | Operator::And | Operator::Or | Operator::Xor => {
            (args.len() >= 2 && all(Sort::Bool), Sort::Bool)
        }
        Operator::Not => (args.len() == 1 && all(Sort::Bool), Sort::Bool),
        Operator::Less | Operator::AtMost | Operator::Greater | Operator::AtLeast => {
            (args.len() >= 2 && all(Sort::Int), Sort::Bool)
        }
        Operator::Plus | Operator::Times | Operator::Div => {
            (args.len() >= 2 && all(Sort::Int), Sort::Int)
        }
        Operator::Minus => (!args.is_empty() && all(Sort::Int), Sort::Int),
        Operator::Mod => (args.len() == 2 && all(Sort::Int), Sort::Int),
        Operator::Abs => (args.len() == 1 && all(Sort::Int), Sort::Int),
    };
    is_good.then_some(result)
}

pub fn agree(a: Sort, b: Sort) -> bool {
    a == b || a == Sort::Any || b == Sort::Any
}

fn are_one(sorts: &[Sort]) -> bool {
    sorts.iter().all(|sort| agree(*sort, known(sorts)))
}

/// The first that is known.
fn known(sorts: &[Sort]) -> Sort {
    let mut known = sorts.iter().filter(|sort| **sort != Sort::Any);
    *known.next().unwrap_or(&Sort::Any)
}
