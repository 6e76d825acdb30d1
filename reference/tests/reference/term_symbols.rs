//! The symbols of terms by hand, and the line that declares each.

use leskofar_reference::book::{BOOL, INT};
use leskofar_reference::book_test::check;
use leskofar_reference::maker::Maker;
use leskofar_reference::program::SType;
use leskofar_reference::term_symbols::{Symbol, TermSymbols};
use Symbol::{Constant, Function, Sort};

/// With constants x of T and y of Int, numbers 0 and 1, and a function f from T
/// and Int to U; T and U are types 0 and 1.
struct Book {
    m: Maker,
    t: u32,
}

fn book() -> Book {
    let mut m = Maker::default();
    let [t, u] = ["T", "U"].map(|name| m.user_type(name));
    m.constant("x", t);
    m.constant("y", INT);
    m.function("f", &[t, INT], u);
    Book { m, t }
}

impl Book {
    fn assert(&self, term: u32, symbols: &[Symbol], operators: &[&str]) {
        let book = self.m.book();
        let program = check(&book).expect("a good book");
        let found = TermSymbols::of(&program, term as usize);
        assert_eq!(found.symbols, symbols);
        let operators: Vec<&[u8]> = operators.iter().map(|name| name.as_bytes()).collect();
        assert_eq!(found.operators, operators);
    }
}

const X: [Symbol; 2] = [Constant(0), Sort(0)];
const Y: [Symbol; 1] = [Constant(1)];
const F: [Symbol; 3] = [Function(0), Sort(0), Sort(1)];

/// A literal of type T.
fn literal(s: &str) -> [Symbol<'_>; 2] {
    let typ = SType::SUserType(0);
    [
        Symbol::Literal {
            s: s.as_bytes(),
            typ,
        },
        Sort(0),
    ]
}

#[test]
fn leaves() {
    let mut b = book();
    let [boolean, integer] = [b.m.boolean(true), b.m.integer(-5)];
    let [x, y] = [0, 1].map(|v| b.m.id(v));
    let [a, tag, empty] = ["a", "%tag", ""].map(|text| b.m.literal(text, b.t));
    let of_bool = b.m.literal("a", BOOL);
    b.assert(boolean, &[], &[]);
    b.assert(integer, &[], &[]);
    b.assert(x, &X, &[]);
    b.assert(y, &Y, &[]);
    b.assert(a, &literal("a"), &[]);
    b.assert(empty, &literal(""), &[]);
    b.assert(tag, &[], &[]);
    let typ = SType::SBool;
    b.assert(of_bool, &[Symbol::Literal { s: b"a", typ }], &[]);
}

#[test]
fn applications_and_operators() {
    let mut b = book();
    let args = [b.m.id(0), b.m.id(1)];
    let f = b.m.apply(0, &args);
    let args = [b.m.id(1), f];
    let equal = b.m.built_in("=", &args);
    let args = [equal, b.m.built_in("|and|", &[]), b.m.built_in("", &[])];
    let term = b.m.if_then_else(args[0], args[1], args[2]);
    let symbols = [&Y[..], &F, &X, &Y].concat();
    b.assert(term, &symbols, &["=", "and", "()"]);
}

/// A let's right side is outside, and its variable's type is not asked.
#[test]
fn a_let_binds_in_its_body() {
    let mut b = book();
    let [rhs, body] = [0, 0].map(|v| b.m.id(v));
    let own = b.m.let_expr(0, rhs, body);
    let [rhs, body] = [1, 0].map(|v| b.m.id(v));
    let other = b.m.let_expr(0, rhs, body);
    let [three, y] = [b.m.integer(3), b.m.id(1)];
    let unused = b.m.let_expr(0, three, y);
    b.assert(own, &X, &[]);
    b.assert(other, &Y, &[]);
    b.assert(unused, &Y, &[]);
}

/// What is bound ends with the let.
#[test]
fn a_constant_bound_and_then_free() {
    let mut b = book();
    let [rhs, body, free] = [1, 0, 0].map(|v| b.m.id(v));
    let bound = b.m.let_expr(0, rhs, body);
    let term = b.m.built_in("=", &[bound, free]);
    b.assert(term, &[&Y[..], &X].concat(), &["="]);
    // The same constant bound twice, by an inner let too.
    let [inner_rhs, inner_body, rhs, rest] = [0, 0, 1, 0].map(|v| b.m.id(v));
    let inner = b.m.let_expr(0, inner_rhs, inner_body);
    let body = b.m.built_in("and", &[inner, rest]);
    let outer = b.m.let_expr(0, rhs, body);
    b.assert(outer, &Y, &["and"]);
}

#[test]
fn a_quantifier_binds_in_patterns_and_body() {
    let mut b = book();
    let args = [0, 1].map(|v| b.m.id(v));
    let in_pattern = b.m.apply(0, &args);
    let pattern = b.m.pattern(&[in_pattern]);
    let body = b.m.id(0);
    let term = b.m.quantifier(true, &[0], &[pattern], body);
    // The variable's type first, whether or not the variable is used.
    b.assert(term, &[&[Sort(0)][..], &F, &Y].concat(), &[]);
    let body = b.m.id(1);
    let unused = b.m.quantifier(false, &[0, 1], &[], body);
    b.assert(unused, &[Sort(0)], &[]);
}

/// Its patterns are not printed, and count.
#[test]
fn a_quantifier_without_variables() {
    let mut b = book();
    let terms = [b.m.id(0), b.m.literal("a", b.t)];
    let pattern = b.m.pattern(&terms);
    let args = [b.m.id(1), b.m.literal("%tag", INT)];
    let body = b.m.built_in("<", &args);
    let term = b.m.quantifier(true, &[], &[pattern], body);
    b.assert(term, &[&X[..], &literal("a"), &Y].concat(), &["<"]);
}

/// A let in a pattern of a quantifier in a branch.
#[test]
fn nested_terms() {
    let mut b = book();
    let [rhs, body] = [1, 0].map(|v| b.m.id(v));
    let bound = b.m.let_expr(0, rhs, body);
    let free = b.m.id(0);
    let pattern = b.m.pattern(&[bound, free]);
    let body = b.m.literal("a", b.t);
    let quantifier = b.m.quantifier(true, &[1], &[pattern], body);
    let [guard, els] = [b.m.id(1), b.m.literal("%tag", b.t)];
    let term = b.m.if_then_else(guard, quantifier, els);
    b.assert(term, &[&Y[..], &X, &literal("a")].concat(), &[]);
}

#[test]
fn how_symbols_are_declared() {
    let mut m = Maker::default();
    let [t, barred] = ["red 40", "|T U|"].map(|name| m.user_type(name));
    m.constant("let", t);
    m.constant("|x|", INT);
    m.constant("||", BOOL);
    m.function("f", &[], barred);
    m.function("f g", &[t, barred, INT], BOOL);
    let book = m.book();
    let program = check(&book).expect("a good book");
    let (s, typ) = (&b"a b"[..], SType::SUserType(0));
    let declared = [
        (Sort(0), "red 40", "(declare-sort |red 40| 0)"),
        (Sort(1), "T U", "(declare-sort |T U| 0)"),
        (Constant(0), "let", "(declare-fun |let| () |red 40|)"),
        (Constant(1), "x", "(declare-fun |x| () Int)"),
        (Constant(2), "", "(declare-fun || () Bool)"),
        (Function(0), "f", "(declare-fun f () |T U|)"),
        (
            Function(1),
            "f g",
            "(declare-fun |f g| (|red 40| |T U| Int) Bool)",
        ),
        (
            Symbol::Literal { s, typ },
            "a b:red 40",
            "(declare-fun |a b:red 40| () |red 40|)",
        ),
    ];
    for (symbol, name, line) in declared {
        assert_eq!(symbol.name(&program), name.as_bytes());
        assert_eq!(symbol.declaration(&program), line.as_bytes());
        assert_eq!(symbol.is_sort(), matches!(symbol, Sort(_)));
    }
}
