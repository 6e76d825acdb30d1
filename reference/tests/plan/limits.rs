//! The limits of a book, met by texts: what just passes, and where the error
//! is for one more.

use crate::bad_texts::error;
use leskofar_reference::book::Section;
use leskofar_reference::book_test::MOST_DEPTH;
use leskofar_reference::plan::{read, Options};

/// Items, one to a line, of which one more than the section's most is too
/// many.
fn assert_limit(section: Section, what: &str, item: impl Fn(usize) -> String) {
    let most = section.most();
    let text = |count: usize| (0..count).map(&item).collect::<Vec<_>>().join("\n");
    assert!(
        read(text(most).as_bytes(), Options::default()).is_ok(),
        "{what}"
    );
    let error = error(&text(most + 1));
    assert_eq!(error.at.line, most + 1, "{error}");
    let expected = format!("at most {most} {what} in a book");
    assert_eq!((error.expected, error.found.as_str()), (expected, "more"));
}

#[test]
fn sections() {
    use Section::*;
    assert_limit(Letters, "letters", |_| "(letters \"x\")".into());
    assert_limit(Names, "names", |n| {
        format!("(term t{n} (literal \"{n}\" Int))")
    });
    assert_limit(Types, "types", |n| format!("(type T{n})"));
    assert_limit(Constants, "constants", |n| format!("(constant c{n} Int)"));
    assert_limit(Functions, "functions", |n| {
        format!("(function f{n} () Int)")
    });
    assert_limit(Axioms, "axioms", |n| format!("(axiom a{n})"));
    assert_limit(Patterns, "patterns", |n| format!("(pattern p{n} ())"));
    assert_limit(Terms, "terms", |n| format!("(term t{n} {n})"));
    assert_limit(Contexts, "contexts", |n| format!("(node n{n} root true)"));
    assert_limit(Lists, "lists", |_| "(lists 7)".into());
}

#[test]
fn depth() {
    let node = |n: usize| match n {
        1 => "(node n1 root true)\n".into(),
        _ => format!("(node n{n} n{} true)\n", n - 1),
    };
    let chain = |depth: usize| (1..=depth).map(node).collect::<String>();
    assert!(read(chain(MOST_DEPTH).as_bytes(), Options::default()).is_ok());
    let error = error(&chain(MOST_DEPTH + 1));
    assert_eq!((error.at.line, error.at.column), (MOST_DEPTH + 1, 7));
    assert_eq!(error.expected, "a node at most 400 deep");
    assert_eq!(error.found, "depth 401");
}

#[test]
fn nesting() {
    let nested = |terms: usize| {
        let around = terms - 1;
        let (opened, closed) = ("(not ".repeat(around), ")".repeat(around));
        format!("(term t {opened}true{closed})")
    };
    let most = Section::Terms.most();
    assert!(read(nested(most).as_bytes(), Options::default()).is_ok());
    let error = error(&nested(most + 1));
    assert_eq!(error.expected, "at most 1024 terms in each other");
    let column = "(term t ".len() + "(not ".len() * most + 1;
    assert_eq!(error.at.column, column);
}
