//! Symbols of live assertions: the worked books with their counts, and the edges
//! of request A10.

use crate::stranger_desk::Run;
use crate::writer_desk::Growth;
use leskofar_reference::book::{kind, BOOL, INT};
use leskofar_reference::maker::{sample, small, Maker, Sample};
use leskofar_reference::strangers::Breach;

/// A book whose node 1 says that two terms are equal.
fn equated(make: impl FnOnce(&mut Maker) -> [u32; 2]) -> Run {
    let mut m = Maker::default();
    let args = make(&mut m);
    let equal = m.built_in("=", &args);
    m.context(0, equal);
    Run::moved(&m, 1)
}

fn constants(names: [&str; 2]) -> Run {
    equated(|m| {
        let constants = names.map(|name| m.constant(name, INT));
        constants.map(|constant| m.id(constant))
    })
}

#[test]
fn books_that_are_told_apart() {
    constants(["x", "y"]).assert_once(2);
    // One literal twice.
    equated(|m| [(); 2].map(|()| m.literal("a", INT))).assert_once(2);
}

/// Each with the declarations of its symbols, one at least not being 1.
#[test]
fn books_with_a_clash() {
    let of_types = |names: [&str; 2]| {
        equated(|m| {
            let types = names.map(|name| m.user_type(name));
            let constants = [m.constant("x", types[0]), m.constant("y", types[1])];
            constants.map(|constant| m.id(constant))
        })
    };
    let beside = equated(|m| {
        let constant = m.constant("|a:int|", INT);
        [m.id(constant), m.literal("a", INT)]
    });
    let two_types = equated(|m| {
        let typ = m.user_type("int");
        [m.literal("a", INT), m.literal("a", typ)]
    });
    let colons = equated(|m| {
        let [c, b_c] = ["c", "b:c"].map(|name| m.user_type(name));
        [m.literal("a:b", c), m.literal("a", b_c)]
    });
    let clashes = [
        (constants(["x", "x"]), vec![2, 2]),
        (constants(["x", "|x|"]), vec![2, 2]),
        (constants(["red 40", "|red 40|"]), vec![2, 2]),
        (beside, vec![2, 2]),
        (two_types, vec![1, 1, 0]),
        (colons, vec![1, 1, 1, 0]),
        (of_types(["T", "T"]), vec![1, 2, 1, 2]),
    ];
    for (run, counts) in clashes {
        assert!(!run.told_apart());
        assert_eq!(run.counts(), counts);
        let is_not_once = |breach: &Breach| matches!(breach, Breach::NotOnce { .. });
        assert!(run.breaches().iter().any(is_not_once));
    }
}

#[test]
fn a_type_int_and_a_constant_named_as_an_operator() {
    let run = equated(|m| {
        let typ = m.user_type("Int");
        let constants = [m.constant("x", typ), m.constant("y", INT)];
        constants.map(|constant| m.id(constant))
    });
    assert!(!run.told_apart());
    assert_eq!(run.breaches(), [Breach::BuiltInSort { declaration: 2 }]);
    let run = constants(["x", "="]);
    assert!(!run.told_apart());
    let operator = Breach::Operator {
        assertion: 4,
        operator: "=".into(),
        declaration: 3,
    };
    assert_eq!(run.breaches(), [operator]);
}

#[test]
fn the_books_of_document_01() {
    let Sample { maker, goal } = sample();
    let mut run = Run::moved(&maker, 2);
    run.assert_once(5);
    // Another branch, and a goal that declares f with its axiom once more.
    run.ask(3, goal);
    run.assert_once(5);
    run.reply(b"sat");
    run.assert_once(5);
    let small = small();
    Run::moved(&small.maker, small.tagged_node).assert_once(2);
    let mut run = Run::new(&small.maker);
    run.ask(0, small.no_variables);
    run.assert_once(2);
}

/// The declarations of a question go with it and come again; a branch that was
/// left declares the same again.
#[test]
fn declarations_that_come_again() {
    let Sample { maker, goal } = sample();
    let mut run = Run::new(&maker);
    run.ask(3, goal);
    run.assert_once(5);
    run.reply(b"unsat");
    run.assert_once(2);
    run.ask(3, goal);
    run.assert_once(5);
    let mut run = Run::moved(&maker, 2);
    run.move_to(3);
    run.assert_once(2);
    run.move_to(2);
    run.assert_once(5);
    run.move_to(0);
    run.assert_once(0);
}

/// x is bound at node 1 and free below it, and the literal is used again.
#[test]
fn a_constant_bound_and_free_and_a_literal_used_again() {
    let mut m = Maker::default();
    let typ = m.user_type("T");
    let x = m.constant("x", typ);
    let [rhs, body] = [m.literal("a", typ), m.id(x)];
    let bound = m.let_expr(x, rhs, body);
    let above = m.context(0, bound);
    let args = [m.id(x), m.literal("a", typ)];
    let free = m.built_in("=", &args);
    m.context(above, free);
    let mut run = Run::moved(&m, 1);
    run.assert_once(2);
    run.move_to(2);
    run.assert_once(6);
    // A variable's type is declared, and the variable is not.
    let mut m = Maker::default();
    let typ = m.user_type("T");
    let v = m.constant("v", typ);
    let [in_pattern, body] = [m.id(v), m.id(v)];
    let pattern = m.pattern(&[in_pattern]);
    let all = m.quantifier(true, &[v], &[pattern], body);
    m.context(0, all);
    Run::moved(&m, 1).assert_once(1);
}

/// g and c stand in the axiom of f alone, d in the axiom of g.
#[test]
fn symbols_of_axioms() {
    let mut m = Maker::default();
    let typ = m.user_type("T");
    let [c, d] = ["c", "d"].map(|name| m.constant(name, typ));
    let [f, g] = ["f", "g"].map(|name| m.function(name, &[], typ));
    let args = [m.apply(g, &[]), m.id(c), m.literal("%tag", INT)];
    let of_f = m.built_in("f?", &args);
    let args = [m.id(d), m.literal("%tag", INT)];
    let of_g = m.built_in("g?", &args);
    for (function, term) in [(f, of_f), (g, of_g)] {
        let axiom = m.axiom(Some(term), &[function]);
        m.explained_by(function, &[axiom]);
    }
    let f = m.apply(f, &[]);
    m.context(0, f);
    let run = Run::moved(&m, 1);
    // d T; g T c T; f T
    run.assert_once(8);
    assert!(run.text.contains("(g? d 6)") && run.text.contains("(f? g c 7)"));
}

/// Axioms that print alike, one of which has a pattern that is not printed.
#[test]
fn axioms_that_print_alike() {
    let mut m = Maker::default();
    let c = m.constant("c", BOOL);
    let [f, g] = ["f", "g"].map(|name| m.function(name, &[], BOOL));
    let terms = [m.id(c)];
    let pattern = m.pattern(&terms);
    let body = m.boolean(true);
    let hidden = m.quantifier(true, &[], &[pattern], body);
    let plain = m.boolean(true);
    for (function, term) in [(f, hidden), (g, plain)] {
        let axiom = m.axiom(Some(term), &[function]);
        m.explained_by(function, &[axiom]);
    }
    let [f, g] = [f, g].map(|function| m.apply(function, &[]));
    let above = m.context(0, g);
    m.context(above, f);
    let run = Run::moved(&m, 2);
    run.assert_once(3);
    // The line that has c, too early for it.
    let text = run.text.replace("(declare-fun c () Bool)\n", "");
    let breaches = run.look_at(&text, |_, look| look.breaches);
    let symbol = "(declare-fun c () Bool)".to_string();
    assert_eq!(
        breaches,
        [Breach::NotOnce {
            assertion: 7,
            symbol,
            times: 0
        }]
    );
}

#[test]
fn a_book_that_grows_between_two_calls() {
    let Sample { maker, goal } = sample();
    let mut run = Run::moved(&maker, 1);
    run.ask(1, goal);
    run.assert_once(4);
    let seven = run.grow(&Growth::term([kind::INTEGER, 7, 0, 0, 0, 0, 0], [&[], &[]]));
    let node = run.grow(&Growth::record(1, seven, INT, None));
    run.assert_once(4);
    run.reply(b"unsat");
    run.move_to(node);
    run.assert_once(2);
    // A second probe at the same depth has the same name, so the book is not
    // told apart any more.
    let eight = run.grow(&Growth::term([kind::INTEGER, 8, 0, 0, 0, 0, 0], [&[], &[]]));
    run.grow(&Growth::record(1, eight, BOOL, None));
    assert!(!run.told_apart());
    assert_eq!(run.breaches(), []);
}
