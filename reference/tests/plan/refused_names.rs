//! Names that no book takes: a plan with one is refused, raw or not, and of a book
//! that is refused for them each is told.

use leskofar_reference::book::{BOOL, INT};
use leskofar_reference::maker::Maker;
use leskofar_reference::plan::{check_book, read, refused_names, Complaint, Options, PlanError};
use leskofar_reference::refusal::BAD_NAME;

/// What cannot stand between bars.
pub const UNSENDABLE: [&str; 12] = [
    "", "|", "|||", "|a", "a|", "|a|b|", "|a\\b|", "a\\", "\\", "|\\|", "a|b", "||a||",
];

/// The error of a plan with a name that no book takes, raw or not.
fn refused(text: &str) -> PlanError {
    let error = read(text.as_bytes(), Options::default()).expect_err(text);
    assert_eq!(
        read(text.as_bytes(), Options::RAW).err().as_ref(),
        Some(&error),
        "{text}"
    );
    error
}

/// These are refused with raw names too, since no call takes their book.
#[test]
fn names_that_no_book_takes() {
    for name in UNSENDABLE {
        for item in [
            "(type x :name \"",
            "(constant x Int :name \"",
            "(function x () Int :name \"",
        ] {
            let error = refused(&format!("{item}{name}\")"));
            let expected = "a name that is not empty and has neither bar nor backslash inside";
            assert_eq!(error.expected, expected, "{name}");
            let found = match name {
                "" => "an empty name".into(),
                _ => format!("`{name}`"),
            };
            assert_eq!(error.found, found);
            assert_eq!(error.at.column as usize, item.len());
        }
    }
}

/// The literal's own text, and its type's name.
#[test]
fn literals_that_no_book_takes() {
    let message = "line 2, column 9: expected a literal without bars and backslashes inside, \
                   found `|wool:|thread kind||`, of the type at line 1, column 15";
    let given = "(type S :name \"|thread kind|\")\n(term t (literal \"wool\" S))";
    assert_eq!(refused(given).to_string(), message);
    let own_bar = refused("(type S)(term t (literal \"a|b\" S))");
    assert_eq!(own_bar.found, "`|a|b:S|`");
    let negative = refused("(type |-5|)(term t (literal \"wool\" |-5|))");
    assert_eq!(
        negative.found,
        "`|wool:|-5||`, of the type at line 1, column 7"
    );
}

/// Every name that a book is refused 28 for, record by record.
#[test]
fn refused_names_of_a_book() {
    let mut m = Maker::default();
    let barred = m.user_type("|a b|");
    m.user_type("a|b");
    m.constant("", INT);
    m.function("\\", &[], BOOL);
    m.constant("red 40", barred);
    m.literal("red", barred);
    m.literal("dark|red", INT);
    m.literal("%tag", barred);
    m.literal("", INT);
    m.built_in("|", &[]);
    assert_eq!(check_book(&m.book()), Err(BAD_NAME));
    let told: Vec<String> = refused_names(&m.book())
        .iter()
        .map(Complaint::to_string)
        .collect();
    let name = "expected a name that is not empty and has neither bar nor backslash inside";
    let literal = "expected a literal without bars and backslashes inside";
    let expected = [
        format!("type 3: {name}, found `a|b`"),
        format!("constant 0: {name}, found an empty name"),
        format!("function 0: {name}, found `\\`"),
        format!("term 0: {literal}, found `|red:|a b||`, of type 2"),
        format!("term 1: {literal}, found `|dark|red:int|`"),
    ];
    assert_eq!(told, expected);
    assert_eq!(refused_names(b"no book"), []);
    assert_eq!(refused_names(&Maker::default().book()), []);
}
