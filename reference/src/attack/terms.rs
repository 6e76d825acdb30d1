//! The terms of a plan as it means them: a constant is itself, whatever the
//! solver gets to see of it.

/// By their places in the plan.
pub type Constant = usize;
pub type Literal = usize;
pub type Function = usize;

#[derive(Clone, Copy, Debug, PartialEq, Eq)]
pub enum Sort {
    Bool,
    Int,
    User(usize),
    /// Of an operator that is not known here.
    Any,
}

#[derive(Clone, Debug, PartialEq, Eq)]
pub enum Term {
    Boolean(bool),
    Integer(i128),
    /// `%tag`, a number that is not worked out here.
    Tag,
    Constant(Constant),
    Literal(Literal),
    Apply(Function, Vec<Term>),
    Operator(Operator, Vec<Term>),
    /// An operator that is not known here.
    Other(Vec<Term>),
    /// `builtin` with what is no name of an operator.
    Nothing,
    IfThenElse(Box<[Term; 3]>),
    Let(Constant, Box<[Term; 2]>),
    Quantifier {
        is_universal: bool,
        variables: Vec<Constant>,
        body: Box<Term>,
    },
}

#[derive(Clone, Copy, Debug, PartialEq, Eq)]
pub enum Operator {
    Equal,
    Distinct,
    Implies,
    And,
    Or,
    Xor,
    Not,
    Less,
    AtMost,
    Greater,
    AtLeast,
    Plus,
    Minus,
    Times,
    Div,
    Mod,
    Abs,
}

pub const OPERATORS: [(&str, Operator); 17] = [
    ("=", Operator::Equal),
    ("distinct", Operator::Distinct),
    ("=>", Operator::Implies),
    ("and", Operator::And),
    ("or", Operator::Or),
    ("xor", Operator::Xor),
    ("not", Operator::Not),
    ("<", Operator::Less),
    ("<=", Operator::AtMost),
    (">", Operator::Greater),
    (">=", Operator::AtLeast),
    ("+", Operator::Plus),
    ("-", Operator::Minus),
    ("*", Operator::Times),
    ("div", Operator::Div),
    ("mod", Operator::Mod),
    ("abs", Operator::Abs),
];

pub fn operator(name: &str) -> Option<Operator> {
    let mut known = OPERATORS.iter();
    known
        .find(|(known, _)| *known == name)
        .map(|(_, operator)| *operator)
}

impl Term {
    /// The terms right below.
    pub fn children(&self) -> &[Term] {
        match self {
            Term::Apply(_, args) | Term::Operator(_, args) | Term::Other(args) => args,
            Term::IfThenElse(parts) => &parts[..],
            Term::Let(_, parts) => &parts[..],
            Term::Quantifier { body, .. } => std::slice::from_ref(body),
            Term::Boolean(_)
            | Term::Integer(_)
            | Term::Tag
            | Term::Constant(_)
            | Term::Literal(_)
            | Term::Nothing => &[],
        }
    }
}
