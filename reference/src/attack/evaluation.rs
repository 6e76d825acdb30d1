//! The value of a term where some constants have values: three-valued, so that
//! what comes out holds whatever the others are.

use crate::attack::meaning::Plan;
use crate::attack::terms::{Constant, Operator, Sort, Term};
use std::ops::RangeInclusive;

#[derive(Clone, Copy, Debug, PartialEq, Eq)]
pub enum Value {
    Boolean(bool),
    Integer(i128),
    /// A value of a user type.
    User(i128),
    /// Not known, or not worked out.
    Unknown,
}

/// What is tried for a number, and one that is far from all others.
pub const NEAR: RangeInclusive<i128> = -2..=10;
pub const FAR: i128 = 1000;
/// A user type has so many values.
pub const USER_VALUES: i128 = 2;
/// So many functions are tried for each that the plan has.
pub const FUNCTION_CHOICES: usize = 3;
/// A quantifier over a range that is longer is not worked out.
const LONGEST_RANGE: i128 = 20;

pub struct Evaluation<'p> {
    pub plan: &'p Plan,
    pub constants: Vec<Value>,
    pub literals: Vec<Value>,
    /// Which function each name stands for.
    pub functions: Vec<Option<usize>>,
}

/// All values of a sort, or those that are tried.
pub fn values(sort: Sort) -> Vec<Value> {
    match sort {
        Sort::Bool => vec![Value::Boolean(false), Value::Boolean(true)],
        Sort::Int => NEAR.chain([FAR]).map(Value::Integer).collect(),
        Sort::User(_) => (0..USER_VALUES).map(Value::User).collect(),
        Sort::Any => Vec::new(),
    }
}

impl Evaluation<'_> {
    pub fn value(&mut self, term: &Term) -> Value {
        match term {
            Term::Boolean(b) => Value::Boolean(*b),
            Term::Integer(x) => Value::Integer(*x),
            Term::Constant(constant) => self.constants[*constant],
            Term::Literal(literal) => self.literals[*literal],
            Term::Tag | Term::Other(_) | Term::Nothing => Value::Unknown,
            Term::Apply(function, args) => {
                let args = self.all(args);
                self.applied(*function, &args)
            }
            Term::Operator(operator, args) => operated(*operator, &self.all(args)),
            Term::IfThenElse(parts) => {
                let [guard, thn, els] = [0, 1, 2].map(|part| self.value(&parts[part]));
                match guard {
                    Value::Boolean(true) => thn,
                    Value::Boolean(false) => els,
                    _ if thn == els => thn,
                    _ => Value::Unknown,
                }
            }
            Term::Let(constant, parts) => {
                let bound = self.value(&parts[0]);
                self.value_with(*constant, bound, &parts[1])
            }
            Term::Quantifier {
                is_universal,
                variables,
                body,
            } => self.quantified(*is_universal, variables, body),
        }
    }

    fn all(&mut self, terms: &[Term]) -> Vec<Value> {
        terms.iter().map(|term| self.value(term)).collect()
    }

    fn value_with(&mut self, constant: Constant, bound: Value, body: &Term) -> Value {
        let before = std::mem::replace(&mut self.constants[constant], bound);
        let value = self.value(body);
        self.constants[constant] = before;
        value
    }

    /// One that settles it is enough. If there is none, all that are not tried
    /// must be known to be of no account.
    fn quantified(&mut self, is_universal: bool, variables: &[Constant], body: &Term) -> Value {
        let Some((variable, others)) = variables.split_first() else {
            return self.value(body);
        };
        let sort = self.plan.constants[*variable].1;
        let range = range_of(is_universal, *variable, body);
        let (tried, mut is_whole) = match (sort, range) {
            (Sort::Int, Some(range)) => (range.map(Value::Integer).collect(), true),
            (Sort::Int, None) => (values(sort), false),
            _ => (values(sort), true),
        };
        let settles = Value::Boolean(!is_universal);
        for value in tried {
            let before = std::mem::replace(&mut self.constants[*variable], value);
            let found = self.quantified(is_universal, others, body);
            self.constants[*variable] = before;
            if found == settles {
                return settles;
            }
            is_whole = is_whole && found != Value::Unknown;
        }
        if is_whole {
            Value::Boolean(is_universal)
        } else {
            Value::Unknown
        }
    }

    /// One of a few functions of the arguments.
    fn applied(&self, function: usize, args: &[Value]) -> Value {
        let numbers = args.iter().map(|arg| match arg {
            Value::Boolean(b) => Some(i128::from(*b)),
            Value::Integer(x) | Value::User(x) => Some(*x),
            Value::Unknown => None,
        });
        let (Some(choice), Some(numbers)) = (
            self.functions[function],
            numbers.collect::<Option<Vec<i128>>>(),
        ) else {
            return Value::Unknown;
        };
        let sum = || {
            numbers
                .iter()
                .try_fold(0, |sum: i128, x| sum.checked_add(*x))
        };
        let number = match choice {
            0 => Some(0),
            1 => sum(),
            _ => sum().and_then(|sum| 1_i128.checked_sub(sum)),
        };
        let Some(number) = number else {
            return Value::Unknown;
        };
        match self.plan.functions[function].2 {
            Sort::Bool => Value::Boolean(number % 2 != 0),
            Sort::Int => Value::Integer(number),
            Sort::User(_) => Value::User(number.rem_euclid(USER_VALUES)),
            Sort::Any => Value::Unknown,
        }
    }
}

/// The numbers outside of which a quantifier's body says nothing: it is
/// `(=> (and (<= 1 k) (<= k 3)) ..)`, or `(and (<= 1 k) (<= k 3) ..)` where
/// one is sought.
fn range_of(is_universal: bool, variable: Constant, body: &Term) -> Option<RangeInclusive<i128>> {
    let conditions = match body {
        Term::Operator(Operator::Implies, args) if is_universal => match &args[..] {
            [Term::Operator(Operator::And, conditions), _] => conditions,
            _ => return None,
        },
        Term::Operator(Operator::And, conditions) if !is_universal => conditions,
        _ => return None,
    };
    let (mut least, mut most) = (None, None);
    for condition in conditions {
        if let Term::Operator(Operator::AtMost, args) = condition {
            match &args[..] {
                [Term::Integer(x), Term::Constant(c)] if *c == variable => least = Some(*x),
                [Term::Constant(c), Term::Integer(x)] if *c == variable => most = Some(*x),
                _ => {}
            }
        }
    }
    let (least, most) = (least?, most?);
    (most - least <= LONGEST_RANGE).then_some(least..=most)
}

fn operated(operator: Operator, args: &[Value]) -> Value {
    match operator {
        Operator::And => settled(args, false),
        Operator::Or => settled(args, true),
        Operator::Not => not(args[0]),
        Operator::Implies => {
            let mut args = args.to_vec();
            let last = args.len() - 1;
            args[..last].iter_mut().for_each(|arg| *arg = not(*arg));
            settled(&args, true)
        }
        Operator::Xor => args[1..].iter().fold(args[0], |a, b| match (a, *b) {
            (Value::Boolean(a), Value::Boolean(b)) => Value::Boolean(a != b),
            _ => Value::Unknown,
        }),
        Operator::Equal => chained(args, |a, b| a == b),
        Operator::Distinct => {
            let pairs = args.iter().enumerate();
            let pairs = pairs.flat_map(|(i, a)| args[i + 1..].iter().map(|b| [*a, *b]));
            let all: Vec<Value> = pairs.map(|pair| chained(&pair, |a, b| a != b)).collect();
            settled(&all, false)
        }
        Operator::Less => chained(args, |a, b| a < b),
        Operator::AtMost => chained(args, |a, b| a <= b),
        Operator::Greater => chained(args, |a, b| a > b),
        Operator::AtLeast => chained(args, |a, b| a >= b),
        Operator::Plus
        | Operator::Minus
        | Operator::Times
        | Operator::Div
        | Operator::Mod
        | Operator::Abs => computed(operator, args).map_or(Value::Unknown, Value::Integer),
    }
}

/// `or` where one that is true settles it, `and` where one that is false does.
fn settled(args: &[Value], by: bool) -> Value {
    if args.contains(&Value::Boolean(by)) {
        Value::Boolean(by)
    } else if args.contains(&Value::Unknown) {
        Value::Unknown
    } else {
        Value::Boolean(!by)
    }
}

fn not(value: Value) -> Value {
    match value {
        Value::Boolean(b) => Value::Boolean(!b),
        _ => Value::Unknown,
    }
}

/// Holds of each two that stand side by side.
fn chained(args: &[Value], holds: impl Fn(i128, i128) -> bool) -> Value {
    let of_pair = |pair: &[Value]| match (number(pair[0]), number(pair[1])) {
        (Some(a), Some(b)) => Value::Boolean(holds(a, b)),
        _ => Value::Unknown,
    };
    let all: Vec<Value> = args.windows(2).map(of_pair).collect();
    settled(&all, false)
}

fn number(value: Value) -> Option<i128> {
    match value {
        Value::Boolean(b) => Some(i128::from(b)),
        Value::Integer(x) | Value::User(x) => Some(x),
        Value::Unknown => None,
    }
}

/// What a division by 0 is, SMT-LIB leaves open.
fn computed(operator: Operator, args: &[Value]) -> Option<i128> {
    let args: Vec<i128> = args.iter().map(|arg| number(*arg)).collect::<Option<_>>()?;
    let (first, others) = args.split_first()?;
    match operator {
        Operator::Minus if others.is_empty() => first.checked_neg(),
        Operator::Abs => first.checked_abs(),
        _ => others.iter().try_fold(*first, |a, b| match operator {
            Operator::Plus => a.checked_add(*b),
            Operator::Minus => a.checked_sub(*b),
            Operator::Times => a.checked_mul(*b),
            Operator::Div => a.checked_div_euclid(*b),
            _ => a.checked_rem_euclid(*b),
        }),
    }
}
