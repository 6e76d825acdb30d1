//! Small books, each for a rule of the walk that is easy to miss. The last
//! term is a goal to be asked.

use leskofar_reference::book::INT;
use leskofar_reference::maker::Maker;

/// Books on which every call is accepted.
pub fn rules() -> Vec<(&'static str, Maker)> {
    vec![
        ("an axiom below a binder", below_binder()),
        ("an axiom that one function lists", waiting(false)),
        ("an axiom that both functions list", waiting(true)),
        ("axioms in a cycle", cycle()),
        ("%tag in an axiom and beside it", tags()),
        ("literals of equal text", equal_text()),
        ("a quantifier without variables", no_variables()),
        ("equal siblings", equal_siblings()),
    ]
}

/// The constant is bound where the function is applied, and free in its axiom.
fn below_binder() -> Maker {
    let mut m = Maker::default();
    let x = m.constant("x", INT);
    let f = m.function("f", &[], INT);
    let free = m.id(x);
    let axiom = m.axiom(Some(free), &[f]);
    m.explained_by(f, &[axiom]);
    let args = [m.apply(f, &[]), m.id(x)];
    let body = m.built_in("=", &args);
    let bound = m.quantifier(true, &[x], &[], body);
    m.context(0, bound);
    m.id(x);
    m
}

/// An axiom explains f and g; g comes later.
fn waiting(g_lists_it: bool) -> Maker {
    let mut m = Maker::default();
    let [f, g] = ["f", "g"].map(|name| m.function(name, &[], INT));
    let term = m.boolean(true);
    let axiom = m.axiom(Some(term), &[f, g]);
    m.explained_by(f, &[axiom]);
    if g_lists_it {
        m.explained_by(g, &[axiom]);
    }
    let first = m.apply(f, &[]);
    m.context(0, first);
    let args = [m.apply(f, &[]), m.apply(g, &[])];
    m.built_in("=", &args);
    m
}

fn cycle() -> Maker {
    let mut m = Maker::default();
    let [f, g] = ["f", "g"].map(|name| m.function(name, &[], INT));
    let [of_f, of_g] = [m.apply(g, &[]), m.apply(f, &[])];
    let [for_f, for_g] = [m.axiom(Some(of_f), &[]), m.axiom(Some(of_g), &[f, g])];
    m.explained_by(f, &[for_f]);
    m.explained_by(g, &[for_g, for_f]);
    for function in [f, g] {
        let applied = m.apply(function, &[]);
        m.context(0, applied);
    }
    m
}

/// An axiom counts itself; the node counts type, function, axiom and literal.
fn tags() -> Maker {
    let mut m = Maker::default();
    let t = m.user_type("T");
    let f = m.function("f", &[], t);
    let inner = m.literal("%tag", t);
    let axiom = m.axiom(Some(inner), &[]);
    m.explained_by(f, &[axiom]);
    let args = [m.apply(f, &[]), m.literal("a", INT), m.literal("%tag", INT)];
    let term = m.built_in("=", &args);
    m.context(0, term);
    m.literal("%tag", t);
    m
}

/// The name declared by one literal is the other's, whose type is not declared.
fn equal_text() -> Maker {
    let mut m = Maker::default();
    let [c, bc] = [m.user_type("c"), m.user_type("b:c")];
    let [first, second] = [m.literal("a:b", c), m.literal("a", bc)];
    m.context(0, second);
    m.context(1, first);
    let args = [m.literal("a:b", c), m.literal("a", INT)];
    m.built_in("=", &args);
    m
}

/// Its patterns are not printed, yet their symbols are declared.
fn no_variables() -> Maker {
    let mut m = Maker::default();
    let [x, y] = ["x", "y"].map(|name| m.constant(name, INT));
    let terms = [m.id(x)];
    let pattern = m.pattern(&terms);
    let body = m.id(y);
    let bare = m.quantifier(true, &[], &[pattern], body);
    m.context(0, bare);
    m
}

fn equal_siblings() -> Maker {
    let mut m = Maker::default();
    for _ in 0..2 {
        let term = m.boolean(true);
        m.context(0, term);
    }
    m
}

/// Node 2 and the last term apply a function one of whose axioms has no term
/// and would not be sent; node 1 does not.
pub fn missing_axiom() -> Maker {
    let mut m = Maker::default();
    let [f, g] = ["f", "g"].map(|name| m.function(name, &[], INT));
    let missing = m.axiom(None, &[g]);
    m.explained_by(f, &[missing]);
    let first = m.apply(g, &[]);
    let node = m.context(0, first);
    let second = m.apply(f, &[]);
    m.context(node, second);
    m.apply(f, &[]);
    m
}
