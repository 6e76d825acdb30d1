//! What the print call prints reads back as the same term, where the names
//! are symbols of their own.

use crate::samples::samples;
use leskofar_reference::book::kind;
use leskofar_reference::book_test::{check, SCRATCH_SIZE};
use leskofar_reference::maker::Maker;
use leskofar_reference::operators;
use leskofar_reference::plan::{read, Options};
use leskofar_reference::print;
use leskofar_reference::program::{Program, RExpr, ROperator, SType};
use leskofar_reference::random::Random;
use leskofar_reference::random_books::{random_book, Counts};
use leskofar_reference::symbols::symbol_text;

const SEED: u64 = 20_260_108;
const BOOKS: usize = 400;
const BOOK_SIZE: usize = 5;
const TEXT_SIZE: usize = 1 << 16;
/// A `%tag` number that no term has by chance.
const TAG_NUMBER: u64 = 7_777_777_777_777_777_777;
const LITERALS: [&str; 4] = ["red", "dark blue", "", "%tag"];
const LAYOUTS: [(bool, u64); 3] = [(false, 0), (true, 0), (true, 3)];

/// A random book's records with names that are symbols of their own.
fn renamed(random: &mut Random, mut m: Maker) -> Maker {
    m.letters.clear();
    m.names.clear();
    for number in 0..m.types.len() {
        m.types[number][0] = m.name(&format!("S{number}"));
    }
    for number in 0..m.constants.len() {
        m.constants[number][0] = m.name(&format!("x{number}"));
    }
    for number in 0..m.functions.len() {
        m.functions[number][0] = m.name(&format!("f{number}"));
    }
    for number in 0..m.terms.len() {
        match m.terms[number][0] {
            kind::CUSTOM_LITERAL => m.terms[number][1] = m.name(random.pick(&LITERALS)),
            kind::BUILT_IN => {
                let operator = random.pick(&operators::NAMES);
                m.terms[number][1] = m.name(&String::from_utf8_lossy(operator));
            }
            _ => {}
        }
    }
    for context in &mut m.contexts {
        context[2] = 0;
    }
    m
}

fn printed(book: &[u8], term: usize, newlines: bool, indent: u64) -> String {
    let (mut scratch, mut text) = (vec![0; SCRATCH_SIZE], vec![0; TEXT_SIZE]);
    let term = term as u32;
    let length = print(
        book,
        &mut scratch,
        term,
        TAG_NUMBER,
        newlines,
        indent,
        &mut text,
    );
    String::from_utf8_lossy(&text[..length.expect("accepted")]).into_owned()
}

/// A print has a number for `%tag`.
fn with_tags(print: &str) -> String {
    print.replace(&TAG_NUMBER.to_string(), "%tag")
}

/// A plan writes a number with its sign, and none needs more than 64 bits: it
/// has no numeral that a minus could be applied to for the least one.
fn with_least(print: &str) -> String {
    let numeral = format!("{})", i64::MIN.unsigned_abs());
    let mut parts: Vec<&str> = print.split(&numeral).collect();
    let behind = parts.pop().expect("a text has a part");
    let opened = parts.into_iter().map(|before| {
        let minus = before.trim_end().strip_suffix("(-");
        format!("{}{}", minus.expect("an applied minus"), i64::MIN)
    });
    opened.chain([behind.to_string()]).collect()
}

/// A print leaves out quantifiers without variables, and a tag's type; a
/// negative number is a minus applied to its numeral.
fn is_same(a: &Program, term_a: usize, b: &Program, term_b: usize) -> bool {
    match (&a.terms[term_a], &b.terms[term_b]) {
        (RExpr::QuantifierExpr { vv, body, .. }, _) if vv.is_empty() => {
            is_same(a, *body, b, term_b)
        }
        (RExpr::CustomLiteral { s: s_a, typ: typ_a }, RExpr::CustomLiteral { s, typ }) => {
            s_a == s && (typ_a == typ || *s == b"%tag")
        }
        (RExpr::FuncAppl { op: op_a, .. }, RExpr::FuncAppl { op, .. }) => {
            op_a == op && have_same_children(a, term_a, b, term_b)
        }
        (RExpr::LetExpr { v: v_a, .. }, RExpr::LetExpr { v, .. }) => {
            v_a == v && have_same_children(a, term_a, b, term_b)
        }
        (
            RExpr::QuantifierExpr {
                univ: univ_a,
                vv: vv_a,
                patterns: patterns_a,
                ..
            },
            RExpr::QuantifierExpr {
                univ, vv, patterns, ..
            },
        ) => {
            let lengths = |program: &Program, patterns: &[usize]| -> Vec<usize> {
                let length = |pattern: &usize| program.patterns[*pattern].exprs.len();
                patterns.iter().map(length).collect()
            };
            (univ_a, vv_a) == (univ, vv)
                && lengths(a, patterns_a) == lengths(b, patterns)
                && have_same_children(a, term_a, b, term_b)
        }
        (RExpr::IfThenElse { .. }, RExpr::IfThenElse { .. }) => {
            have_same_children(a, term_a, b, term_b)
        }
        (RExpr::Integer(x), RExpr::FuncAppl { op, args }) => {
            *x < 0
                && *op == ROperator::BuiltInOperator(b"-")
                && matches!(args[..], [arg] if b.terms[arg] == RExpr::Integer(-x))
        }
        (leaf_a, leaf) => leaf_a == leaf,
    }
}

fn have_same_children(a: &Program, term_a: usize, b: &Program, term_b: usize) -> bool {
    let (children_a, children) = (a.children(term_a), b.children(term_b));
    children_a.len() == children.len()
        && children_a
            .iter()
            .zip(children)
            .all(|(child_a, child)| is_same(a, *child_a, b, child))
}

/// The items of a program's types, constants and functions, with bars around
/// the names that need them.
fn declarations(program: &Program) -> String {
    let text = |name: &[u8]| String::from_utf8_lossy(&symbol_text(name)).into_owned();
    let type_name = |typ: SType| match typ {
        SType::SBool => "Bool".into(),
        SType::SInt => "Int".into(),
        SType::SUserType(decl) => text(program.types[decl].name),
    };
    let mut items = String::new();
    for typ in &program.types {
        items += &format!("(type {})", text(typ.name));
    }
    for constant in &program.constants {
        items += &format!(
            "(constant {} {})",
            text(constant.name),
            type_name(constant.typ)
        );
    }
    for function in &program.functions {
        let inputs: Vec<String> = function.input_types.iter().map(|t| type_name(*t)).collect();
        let (name, inputs) = (text(function.name), inputs.join(" "));
        items += &format!("(function {name} ({inputs}) {})", type_name(function.typ));
    }
    items
}

/// The print of each term, asked as a goal among the book's declarations.
fn assert_prints_read_back(book: &[u8]) {
    let program = check(book).expect("the book passes");
    let items = declarations(&program);
    for term in 0..program.terms.len() {
        for (newlines, indent) in LAYOUTS {
            let print = with_least(&with_tags(&printed(book, term, newlines, indent)));
            let plan = read(
                format!("{items}\n(goal g root {print})").as_bytes(),
                Options::RAW,
            );
            let plan = plan.unwrap_or_else(|error| panic!("{error} in {print}"));
            let again = plan.maker.book();
            let read_program = check(&again).expect("a plan's book passes");
            let goal = plan.goals[0].term as usize;
            assert!(is_same(&program, term, &read_program, goal), "{print}");
        }
    }
}

#[test]
fn prints_of_random_terms() {
    let mut random = Random::new(SEED);
    for _ in 0..BOOKS {
        let counts = Counts::random(&mut random, BOOK_SIZE);
        let maker = random_book(&mut random, counts);
        let maker = renamed(&mut random, maker);
        assert_prints_read_back(&maker.book());
    }
}

#[test]
fn prints_of_the_samples() {
    for (_, text) in samples() {
        let plan = read(&text, Options::default()).expect("a good plan");
        assert_prints_read_back(&plan.maker.book());
    }
}
