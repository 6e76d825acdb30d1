//! The tool `plan`, as it is run.

use crate::samples::path;
use leskofar_reference::book::Section;
use leskofar_reference::book_test::check;
use leskofar_reference::maker::sample;
use leskofar_reference::plan::{read, write, Options};
use leskofar_reference::program::RExpr;
use leskofar_reference::refusal::{meaning, CONTENTS, FOREST};
use std::ffi::OsStr;
use std::fs;
use std::path::{Path, PathBuf};
use std::process::{Command, Output};

pub const BAD_INPUT: Option<i32> = Some(1);
pub const WRONG_USAGE: Option<i32> = Some(2);

pub fn run<S: AsRef<OsStr>>(arguments: &[S]) -> Output {
    let tool = env!("CARGO_BIN_EXE_plan");
    let output = Command::new(tool).args(arguments).output();
    output.expect("the tool runs")
}

/// A file of this test's own.
fn file(name: &str) -> PathBuf {
    Path::new(env!("CARGO_TARGET_TMPDIR")).join(name)
}

fn written(name: &str, bytes: &[u8]) -> PathBuf {
    let path = file(name);
    fs::write(&path, bytes).expect("the file can be written");
    path
}

pub fn string(bytes: &[u8]) -> String {
    String::from_utf8(bytes.to_vec()).expect("text is ASCII")
}

#[test]
fn book_and_text() {
    let plan = path("siblings");
    let text = fs::read(&plan).expect("the sample");
    let mut maker = read(&text, Options::default()).expect("a plan").maker;
    maker.boolean(false);
    let book = maker.book();

    let to_stdout = run(&["book".as_ref(), plan.as_os_str()]);
    assert!(to_stdout.status.success());
    assert_eq!(to_stdout.stdout, book);
    assert_eq!(to_stdout.stderr, b"");

    let out = file("siblings.book");
    let to_file = run(&[
        OsStr::new("book"),
        "-o".as_ref(),
        out.as_ref(),
        plan.as_ref(),
    ]);
    assert!(to_file.status.success());
    assert_eq!([to_file.stdout, to_file.stderr], [b"", b""]);
    assert_eq!(fs::read(&out).expect("the book"), book);

    let text = run(&[OsStr::new("text"), out.as_ref()]);
    assert!(text.status.success());
    assert_eq!(Ok(string(&text.stdout)), write(&book));
}

/// Goals never run into the book.
#[test]
fn goals() {
    let plan = path("siblings");
    let lines = "3 34 near_travels_at_most_3\n4 34 far_travels_at_most_3\n\
                 3 34 near_again_travels_at_most_3\n";
    let out = file("siblings_with_goals.book");
    let to_file = run(&[
        OsStr::new("book"),
        plan.as_ref(),
        "--goals".as_ref(),
        "-o".as_ref(),
        out.as_ref(),
    ]);
    assert!(to_file.status.success());
    assert_eq!(string(&to_file.stdout), lines);

    let to_stdout = run(&[OsStr::new("book"), "--goals".as_ref(), plan.as_ref()]);
    assert!(to_stdout.status.success());
    assert_eq!(to_stdout.stdout, fs::read(&out).expect("the book"));
    assert_eq!(string(&to_stdout.stderr), lines);
}

#[test]
fn help() {
    let help = run(&["--help"]);
    assert!(help.status.success());
    assert!(help.stdout.starts_with(b"usage: plan book FILE"));
}

#[test]
fn a_bad_text() {
    let bad = written("bad.plan", b"(type Shade)\n(type Shade)\n");
    let out = file("never.book");
    let answer = run(&[
        OsStr::new("book"),
        bad.as_ref(),
        "-o".as_ref(),
        out.as_ref(),
    ]);
    assert_eq!(answer.status.code(), BAD_INPUT);
    let why =
        ": line 2, column 7: expected a new name, found `Shade`, declared at line 1, column 7\n";
    assert_eq!(string(&answer.stderr), format!("{}{why}", bad.display()));
    assert!(!out.exists());
}

#[test]
fn a_bad_book() {
    let mut maker = sample().maker;
    maker.contexts[0][1] = maker.contexts[1][1];
    let bad = written("bad.book", &maker.book());
    let answer = run(&[OsStr::new("text"), bad.as_ref()]);
    assert_eq!(answer.status.code(), BAD_INPUT);
    let why = format!("{}: refused {FOREST}: {}\n", bad.display(), meaning(FOREST));
    assert_eq!(string(&answer.stderr), why);
    assert_eq!(answer.stdout, b"");
}

#[test]
fn wrong_usage() {
    let calls: [&[&str]; 19] = [
        &[],
        &["book"],
        &["text"],
        &["script"],
        &["book", "-o"],
        &["book", "a", "b"],
        &["book", "a", "-x"],
        &["book", "a", "-o", "b", "-o", "c"],
        &["text", "a", "--goals"],
        &["text", "a", "--raw-names"],
        &["text", "a", "--raw-sorts"],
        &["check"],
        &["check", "a", "b"],
        &["check", "a", "-o", "b"],
        &["check", "a", "--goals"],
        &["check", "/no/such/file"],
        &["--help", "book"],
        &["book", "/no/such/file"],
        &["text", "/no/such/file"],
    ];
    for call in calls {
        let answer = run(call);
        assert_eq!(answer.status.code(), WRONG_USAGE, "{call:?}");
        assert!(!answer.stderr.is_empty() && answer.stdout.is_empty());
    }
    let plan = path("siblings");
    let answer = run(&[
        OsStr::new("book"),
        plan.as_ref(),
        "-o".as_ref(),
        "/no/such/file".as_ref(),
    ]);
    assert_eq!(answer.status.code(), WRONG_USAGE);
}

/// Each rule can be let go; what it has to say is a warning then, and the
/// book is the same.
#[test]
fn raw_names_and_sorts() {
    let text = b"(constant x Int :name \"-5\")\n(term t (<= x))\n(term f false)";
    let plan = written("raw.plan", text);
    let name = ": line 1, column 23: expected a name that does not look like a negative number, \
                found `-5`\n";
    let sort = ": line 2, column 9: expected 2 or more arguments of `<=`, found 1\n";
    let file = plan.display();
    let book = read(text, Options::RAW).expect("a raw plan").maker.book();
    for (flags, errors, is_written) in [
        (&[][..], format!("{file}{name}"), false),
        (&["--raw-sorts"], format!("{file}{name}"), false),
        (&["--raw-names"], format!("{file}{sort}"), false),
        (
            &["--raw-sorts", "--raw-names"],
            format!("{file}: warning{name}{file}: warning{sort}"),
            true,
        ),
    ] {
        let mut call = vec![OsStr::new("book"), plan.as_ref()];
        call.extend(flags.iter().map(OsStr::new));
        let answer = run(&call);
        assert_eq!(string(&answer.stderr), errors);
        let status = if is_written { Some(0) } else { BAD_INPUT };
        assert_eq!(answer.status.code(), status, "{flags:?}");
        let expected = if is_written { &book[..] } else { &[] };
        assert_eq!(answer.stdout, expected);
    }
}

#[test]
fn check_a_good_book() {
    let good = written("good_to_check.book", &sample().maker.book());
    let answer = run(&[OsStr::new("check"), good.as_ref()]);
    assert_eq!(answer.status.code(), Some(0));
    let line = format!(
        "{}: the book passes, and its names and sorts are right\n",
        good.display()
    );
    assert_eq!(string(&answer.stdout), line);
    assert_eq!(answer.stderr, b"");
}

#[test]
fn complaints_of_a_book() {
    let mut maker = sample().maker;
    maker.constant("x", 0);
    maker.user_type("-5");
    let seven = maker.integer(7);
    maker.built_in("<=", &[seven]);
    let bad = written("bad_to_check.book", &maker.book());
    let names = "type 2: expected a name that does not look like a negative number, found `-5`\n\
                 constant 3: expected a name of its own, found `x`, the name of constant 0\n";
    let sorts = "term 20: expected 2 or more arguments of `<=`, found 1\n";
    let warning_of_names =
        "warning: type 2: expected a name that does not look like a negative number, found `-5`";
    let warning_of_sorts = "warning: term 20: expected 2 or more arguments of `<=`, found 1";
    let file = bad.display();
    for (flags, lines, errors) in [
        (
            &[][..],
            format!("{names}{sorts}"),
            format!("{file}: 3 complaints\n"),
        ),
        (
            &["--raw-names"],
            sorts.into(),
            format!("{file}: {warning_of_names}\n{file}: 1 complaint\n"),
        ),
        (
            &["--raw-sorts"],
            names.into(),
            format!("{file}: {warning_of_sorts}\n{file}: 2 complaints\n"),
        ),
        (
            &["--raw-sorts", "--raw-names"],
            format!("{file}: the book passes\n"),
            format!("{file}: {warning_of_names}\n{file}: {warning_of_sorts}\n"),
        ),
    ] {
        let mut call = vec![OsStr::new("check"), bad.as_ref()];
        call.extend(flags.iter().map(OsStr::new));
        let answer = run(&call);
        assert_eq!(string(&answer.stdout), lines);
        assert_eq!(string(&answer.stderr), errors);
        let status = if flags.len() == 2 { Some(0) } else { BAD_INPUT };
        assert_eq!(answer.status.code(), status);
    }
}

#[test]
fn check_a_refused_book() {
    let bad = written("refused_to_check.book", b"no book");
    let answer = run(&[OsStr::new("check"), bad.as_ref(), "--raw-names".as_ref()]);
    assert_eq!(answer.status.code(), BAD_INPUT);
    let why = format!(
        "{}: refused {CONTENTS}: {}\n",
        bad.display(),
        meaning(CONTENTS)
    );
    assert_eq!(string(&answer.stderr), why);
    assert_eq!(answer.stdout, b"");
}

/// Of a book that is refused for its names these are told, raw or not.
#[test]
fn check_a_book_refused_for_its_names() {
    let mut maker = sample().maker;
    maker.constant("a|b", 0);
    maker.user_type("");
    let bad = written("bad_names_to_check.book", &maker.book());
    let expected = "expected a name that is not empty and has neither bar nor backslash inside";
    let lines =
        format!("type 2: {expected}, found an empty name\nconstant 3: {expected}, found `a|b`\n");
    for flags in [&[][..], &["--raw-names", "--raw-sorts"]] {
        let mut call = vec![OsStr::new("check"), bad.as_ref()];
        call.extend(flags.iter().map(OsStr::new));
        let answer = run(&call);
        assert_eq!(string(&answer.stdout), lines);
        let why = "a name that cannot go to a solver: empty, or with a bar or backslash";
        let refused = format!("{}: refused 28: {why}\n", bad.display());
        assert_eq!(string(&answer.stderr), refused);
        assert_eq!(answer.status.code(), BAD_INPUT);
    }
}

/// The book that the tool writes for a text, and what it says besides.
fn book_of(name: &str, text: &str) -> (Vec<u8>, String) {
    let plan = written(name, text.as_bytes());
    let answer = run(&[OsStr::new("book"), plan.as_ref(), "--goals".as_ref()]);
    assert_eq!(answer.status.code(), Some(0), "{}", string(&answer.stderr));
    (answer.stdout, string(&answer.stderr))
}

/// Whether premises contradict each other can be asked of every plan that has
/// room for it.
#[test]
fn false_at_the_end() {
    let (book, goals) = book_of("no_false.plan", "(goal g root (not true))");
    let program = check(&book).expect("the book passes");
    assert_eq!(program.terms.len(), 3);
    assert_eq!(program.terms[2], RExpr::Boolean(false));
    assert_eq!(goals, "0 1 g\n");

    let (book, goals) = book_of("own_false.plan", "(goal g root (not false))(term t true)");
    let program = check(&book).expect("the book passes");
    assert_eq!(program.terms.len(), 3);
    assert_eq!(program.terms[2], RExpr::Boolean(true));
    assert_eq!(goals, "0 1 g\n");

    let most = Section::Terms.most();
    let items = |count: usize| {
        (0..count)
            .map(|n| format!("(term t{n} {n})\n"))
            .collect::<String>()
    };
    let (book, said) = book_of("room_for_false.plan", &items(most - 1));
    let program = check(&book).expect("the book passes");
    assert_eq!(program.terms.len(), most);
    assert_eq!(program.terms[most - 1], RExpr::Boolean(false));
    assert_eq!(said, "");
    let (book, said) = book_of("no_room_for_false.plan", &items(most));
    let program = check(&book).expect("the book passes");
    assert_eq!(program.terms.len(), most);
    assert!(!program.terms.contains(&RExpr::Boolean(false)));
    assert!(
        said.contains(": note: no room for a term `false`"),
        "{said}"
    );
}
