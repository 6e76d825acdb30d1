//! The rules of names and sorts once more, in a naive form: sorts worked out
//! anew at each term, names compared each with each.

use leskofar_reference::program::SType::{self, SBool, SInt, SUserType};
use leskofar_reference::program::{Program, RExpr, ROperator};

pub const OPERATORS: [&str; 17] = [
    "=", "distinct", "=>", "and", "or", "xor", "not", "<", "<=", ">", ">=", "+", "*", "div", "-",
    "mod", "abs",
];

type Sort = Option<SType>;

/// A term's sort, worked out from its children anew.
fn sort(p: &Program, term: usize) -> Sort {
    match &p.terms[term] {
        RExpr::Boolean(_) | RExpr::QuantifierExpr { .. } => Some(SBool),
        RExpr::Integer(_) => Some(SInt),
        RExpr::CustomLiteral { s, typ } => Some(if *s == b"%tag" { SInt } else { *typ }),
        RExpr::Id(v) => Some(p.constants[*v].typ),
        RExpr::IfThenElse { thn, els, .. } => sort(p, *thn).or_else(|| sort(p, *els)),
        RExpr::LetExpr { body, .. } => sort(p, *body),
        RExpr::FuncAppl { op, .. } => match op {
            ROperator::UserDefinedFunction(f) => Some(p.functions[*f].typ),
            ROperator::BuiltInOperator(name) => match bare(name).as_str() {
                "=" | "distinct" | "=>" | "and" | "or" | "xor" | "not" => Some(SBool),
                "<" | "<=" | ">" | ">=" => Some(SBool),
                "+" | "-" | "*" | "div" | "mod" | "abs" => Some(SInt),
                _ => None,
            },
        },
    }
}

/// A name as text, without its bars.
fn bare(name: &[u8]) -> String {
    let text: String = name.iter().map(|byte| char::from(*byte)).collect();
    match text.len() >= 2 && text.starts_with('|') && text.ends_with('|') {
        true => text[1..text.len() - 1].to_string(),
        false => text,
    }
}

fn may_be(found: Sort, expected: SType) -> bool {
    found.is_none() || found == Some(expected)
}

fn are_alike(sorts: &[Sort]) -> bool {
    let all_may_be = |typ: SType| sorts.iter().all(|sort| may_be(*sort, typ));
    sorts.iter().flatten().all(|typ| all_may_be(*typ))
}

/// A term whose parts are as they must be, theirs not counted.
fn has_right_parts(p: &Program, term: usize) -> bool {
    match &p.terms[term] {
        RExpr::Boolean(_) | RExpr::Integer(_) | RExpr::Id(_) => true,
        RExpr::CustomLiteral { s, typ } => *s != b"%tag" || *typ == SInt,
        RExpr::QuantifierExpr { body, .. } => may_be(sort(p, *body), SBool),
        RExpr::LetExpr { v, rhs, .. } => may_be(sort(p, *rhs), p.constants[*v].typ),
        RExpr::IfThenElse { guard, thn, els } => {
            may_be(sort(p, *guard), SBool) && are_alike(&[sort(p, *thn), sort(p, *els)])
        }
        RExpr::FuncAppl { op, args } => {
            let sorts: Vec<Sort> = args.iter().map(|arg| sort(p, *arg)).collect();
            match op {
                ROperator::UserDefinedFunction(f) => {
                    let inputs = &p.functions[*f].input_types;
                    let mut pairs = sorts.iter().zip(inputs);
                    sorts.len() == inputs.len() && pairs.all(|(sort, typ)| may_be(*sort, *typ))
                }
                ROperator::BuiltInOperator(name) => is_right_operation(&bare(name), &sorts),
            }
        }
    }
}

fn is_right_operation(name: &str, sorts: &[Sort]) -> bool {
    let all = |typ: SType| sorts.iter().all(|sort| may_be(*sort, typ));
    let count = sorts.len();
    match name {
        "=" | "distinct" => count >= 2 && are_alike(sorts),
        "=>" | "and" | "or" | "xor" => count >= 2 && all(SBool),
        "not" => count == 1 && all(SBool),
        "<" | "<=" | ">" | ">=" | "+" | "*" | "div" => count >= 2 && all(SInt),
        "-" => count >= 1 && all(SInt),
        "mod" => count == 2 && all(SInt),
        "abs" => count == 1 && all(SInt),
        _ => true,
    }
}

/// The records whose sorts are wrong, in order.
pub fn wrong_sorts(p: &Program) -> Vec<String> {
    let mut wrong = Vec::new();
    for term in 0..p.terms.len() {
        if !has_right_parts(p, term) {
            wrong.push(format!("term {term}"));
        }
    }
    for (record, node) in p.nodes().iter().enumerate() {
        if !may_be(sort(p, node.expr), SBool) {
            wrong.push(format!("node {}", record + 1));
        }
    }
    for (number, axiom) in p.axioms.iter().enumerate() {
        if axiom.term.is_some_and(|term| !may_be(sort(p, term), SBool)) {
            wrong.push(format!("axiom {number}"));
        }
    }
    wrong
}

/// A name with what it is of. Names are compared each with each.
struct Named {
    record: String,
    name: Vec<u8>,
    of: Of,
}

#[derive(Clone, Copy, PartialEq)]
enum Of {
    Type,
    Constant,
    Function,
    Literal(SType),
    BuiltIn,
}

fn type_name(p: &Program, typ: SType) -> Vec<u8> {
    match typ {
        SBool => b"bool".to_vec(),
        SInt => b"int".to_vec(),
        SUserType(number) => p.types[number].name.to_vec(),
    }
}

fn names(p: &Program) -> Vec<Named> {
    let mut names = Vec::new();
    let mut add = |kind: &str, number: usize, name: &[u8], of: Of| {
        names.push(Named {
            record: format!("{kind} {number}"),
            name: name.to_vec(),
            of,
        });
    };
    for (number, typ) in p.types.iter().enumerate() {
        add("type", number + 2, typ.name, Of::Type);
    }
    for (number, constant) in p.constants.iter().enumerate() {
        add("constant", number, constant.name, Of::Constant);
    }
    for (number, function) in p.functions.iter().enumerate() {
        add("function", number, function.name, Of::Function);
    }
    for (number, term) in p.terms.iter().enumerate() {
        match term {
            RExpr::CustomLiteral { s, typ } if *s != b"%tag" => {
                let inside = [s, b":".as_slice(), &type_name(p, *typ)].concat();
                let name = [b"|", inside.as_slice(), b"|"].concat();
                add("term", number, &name, Of::Literal(*typ));
            }
            RExpr::FuncAppl {
                op: ROperator::BuiltInOperator(name),
                ..
            } => add("term", number, name, Of::BuiltIn),
            _ => {}
        }
    }
    names
}

fn is_digits(text: &str) -> bool {
    !text.is_empty() && text.chars().all(|letter| letter.is_ascii_digit())
}

fn is_unsigned_number(text: &str) -> bool {
    match text.split_once('.') {
        None => is_digits(text),
        Some((before, behind)) => is_digits(before) && is_digits(behind),
    }
}

/// What is declared is printed as a symbol, and so is a literal; an operator is
/// printed as it is.
fn is_one_token(name: &[u8], of: Of) -> bool {
    if of != Of::BuiltIn {
        return true;
    }
    let text: String = name.iter().map(|byte| char::from(*byte)).collect();
    let inside = bare(name);
    let is_barred = inside.len() + 2 == text.len();
    let is_symbol = match is_barred {
        true => !inside.contains(['|', '\\']),
        false => {
            let signs = "~!@$%^&*_-+=<>.?/";
            let may_stand = |c: char| c.is_ascii_alphanumeric() || signs.contains(c);
            !text.is_empty() && !text.as_bytes()[0].is_ascii_digit() && text.chars().all(may_stand)
        }
    };
    let is_number = match (text.get(..2), text.get(2..)) {
        (Some("#x"), Some(digits)) => {
            !digits.is_empty() && digits.chars().all(|c| c.is_ascii_hexdigit())
        }
        (Some("#b"), Some(digits)) => {
            !digits.is_empty() && digits.chars().all(|c| "01".contains(c))
        }
        _ => {
            let whole = text.split('.').next().unwrap_or_default();
            let is_written_short = whole == "0" || !whole.starts_with('0');
            is_unsigned_number(&text) && is_written_short
        }
    };
    is_symbol || is_number
}

/// Of the reserved words, those that the names of the tests can be.
const RESERVED: [&str; 5] = ["let", "exit", "_", "!", "as"];

fn is_right_alone(name: &[u8], of: Of) -> bool {
    let inside = bare(name);
    let is_declared = matches!(of, Of::Type | Of::Constant | Of::Function);
    let is_like_number = inside.strip_prefix('-').is_some_and(is_unsigned_number);
    let is_known = match of {
        Of::Type => ["Bool", "Int"].contains(&inside.as_str()),
        Of::Constant | Of::Function => {
            let words = ["true", "false", "ite"];
            words.contains(&inside.as_str()) || OPERATORS.contains(&inside.as_str())
        }
        _ => false,
    };
    is_one_token(name, of)
        && !(of == Of::BuiltIn && RESERVED.contains(&inside.as_str()))
        && !(is_declared && is_like_number)
        && !is_known
}

fn clash(a: &Named, b: &Named) -> bool {
    let are_apart = (a.of == Of::Type) != (b.of == Of::Type);
    let are_one = match (a.of, b.of) {
        (Of::BuiltIn, Of::BuiltIn) => true,
        (Of::Literal(a), Of::Literal(b)) => a == b,
        _ => false,
    };
    bare(&a.name) == bare(&b.name) && !are_apart && !are_one
}

/// The records whose names are wrong by themselves or beside an earlier one.
pub fn wrong_names(p: &Program) -> Vec<String> {
    let names = names(p);
    let is_wrong = |(place, named): &(usize, &Named)| {
        !is_right_alone(&named.name, named.of)
            || names[..*place].iter().any(|earlier| clash(earlier, named))
    };
    let wrong = names.iter().enumerate().filter(is_wrong);
    wrong.map(|(_, named)| named.record.clone()).collect()
}
