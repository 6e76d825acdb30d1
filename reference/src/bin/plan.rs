//! The tool for readable plans: a plan's text to its book, and back, and the
//! names and sorts of a book.
#![deny(warnings)]

use leskofar_reference::book_test::check;
use leskofar_reference::plan::files::{leads_to, write_whole};
use leskofar_reference::plan::{
    add_false, check_book, read, refused_names, write, Complaint, Goal, Options,
};
use leskofar_reference::refusal::meaning;
use std::env::args_os;
use std::ffi::OsString;
use std::fs::File;
use std::io::{self, Read, Write};
use std::path::{Path, PathBuf};
use std::process::ExitCode;

const HELP: &str = "\
usage: plan book FILE [-o OUT] [--goals] [--raw-names] [--raw-sorts]
       plan text BOOK [-o OUT]
       plan check BOOK [--raw-names] [--raw-sorts]
       plan --help

plan book reads a plan and writes its book to standard output, or to OUT.
With --goals it also prints a line NODE TERM NAME for each goal: to standard
output if the book goes to OUT, else to standard error. Where the plan has no
term `false`, the book gets one behind all others.

plan text reads a book and writes it as a plan to standard output, or to OUT.

plan check tests a book that came from elsewhere, and prints a line for each
name that is not one token to a solver or clashes with another, and for each
term with wrong sorts or a wrong number of arguments. plan book refuses such
plans.

--raw-names and --raw-sorts let these rules go: the first complaint is a
warning on standard error.

OUT is written beside and renamed when it is whole. It may not be the file
that is read.

Exit status: 0 done; 1 a plan's text is bad, the book test refuses a book, or
its names or sorts are wrong; 2 wrong usage, or a file can't be read or
written.
";

/// Exit statuses.
const BAD_INPUT: u8 = 1;
const WRONG_USAGE: u8 = 2;

/// What ends the tool early: its status and what it says.
struct Failure {
    status: u8,
    message: String,
}

impl Failure {
    fn usage(why: &str) -> Failure {
        Failure {
            status: WRONG_USAGE,
            message: format!("{why}\n\n{HELP}"),
        }
    }

    fn file(path: &Path, error: impl std::fmt::Display) -> Failure {
        Failure {
            status: WRONG_USAGE,
            message: format!("{}: {error}\n", path.display()),
        }
    }

    fn input(path: &Path, why: impl std::fmt::Display) -> Failure {
        Failure {
            status: BAD_INPUT,
            message: format!("{}: {why}\n", path.display()),
        }
    }

    fn refused(path: &Path, number: u32) -> Failure {
        Failure::input(path, format!("refused {number}: {}", meaning(number)))
    }
}

#[derive(Clone, Copy, PartialEq, Eq)]
enum Command {
    Book,
    Text,
    Check,
}

struct Call {
    command: Command,
    file: PathBuf,
    out: Option<PathBuf>,
    goals: bool,
    options: Options,
}

fn main() -> ExitCode {
    let arguments: Vec<OsString> = args_os().skip(1).collect();
    let done = if arguments == ["--help"] {
        put(None, HELP.as_bytes())
    } else {
        parsed(arguments).and_then(|call| run(&call))
    };
    match done {
        Ok(()) => ExitCode::SUCCESS,
        Err(failure) => {
            // Nothing is left to do if even this can't be written.
            let _ = io::stderr().write_all(failure.message.as_bytes());
            ExitCode::from(failure.status)
        }
    }
}

fn parsed(arguments: Vec<OsString>) -> Result<Call, Failure> {
    let mut arguments = arguments.into_iter();
    let command = command(arguments.next())?;
    let (mut file, mut out, mut goals) = (None, None, false);
    let mut options = Options::default();
    while let Some(argument) = arguments.next() {
        if argument == "-o" && out.is_none() && command != Command::Check {
            let path = arguments.next();
            let path = path.ok_or_else(|| Failure::usage("-o needs a file"))?;
            out = Some(path.into());
        } else if argument == "--goals" && command == Command::Book {
            goals = true;
        } else if argument == "--raw-names" && command != Command::Text {
            options.raw_names = true;
        } else if argument == "--raw-sorts" && command != Command::Text {
            options.raw_sorts = true;
        } else if file.is_none() && !argument.as_encoded_bytes().starts_with(b"-") {
            file = Some(argument.into());
        } else {
            let why = format!("{} is not taken here", argument.display());
            return Err(Failure::usage(&why));
        }
    }
    Ok(Call {
        command,
        file: file.ok_or_else(|| Failure::usage("a file is missing"))?,
        out,
        goals,
        options,
    })
}

fn command(word: Option<OsString>) -> Result<Command, Failure> {
    let Some(word) = word else {
        return Err(Failure::usage("a command is missing"));
    };
    match word.to_str() {
        Some("book") => Ok(Command::Book),
        Some("text") => Ok(Command::Text),
        Some("check") => Ok(Command::Check),
        _ => {
            let why = format!("there is no command {}", word.display());
            Err(Failure::usage(&why))
        }
    }
}

fn run(call: &Call) -> Result<(), Failure> {
    let bytes = input(call)?;
    match call.command {
        Command::Book => book(call, &bytes),
        Command::Text => {
            let text = write(&bytes).map_err(|number| Failure::refused(&call.file, number))?;
            put(call.out.as_deref(), text.as_bytes())
        }
        Command::Check => check_names_and_sorts(call, &bytes),
    }
}

/// The file's bytes. That it is not what will be written is made sure of
/// before anything is done.
fn input(call: &Call) -> Result<Vec<u8>, Failure> {
    let unread = |error| Failure::file(&call.file, error);
    let mut file = File::open(&call.file).map_err(unread)?;
    if let Some(out) = &call.out {
        if leads_to(out, &file).map_err(|error| Failure::file(out, error))? {
            let why = "this is the file that is read; -o needs another";
            return Err(Failure::file(out, why));
        }
    }
    let mut bytes = Vec::new();
    file.read_to_end(&mut bytes).map_err(unread)?;
    Ok(bytes)
}

fn book(call: &Call, text: &[u8]) -> Result<(), Failure> {
    let plan = read(text, call.options);
    let mut plan = plan.map_err(|error| Failure::input(&call.file, error))?;
    for warning in &plan.warnings {
        say(&call.file, format!("warning: {warning}"))?;
    }
    if !add_false(&mut plan.maker) {
        let why = "note: no room for a term `false`; whether premises contradict each other \
                   can't be asked";
        say(&call.file, why.into())?;
    }
    let book = plan.maker.book();
    // A plan that is read makes a good book; that is made sure of before
    // anybody relies on it.
    check(&book).map_err(|number| Failure::refused(&call.file, number))?;
    put(call.out.as_deref(), &book)?;
    if call.goals {
        put_goals(&plan.goals, call.out.is_some())?;
    }
    Ok(())
}

/// Every complaint on a line of its own, or a line that there is none. Of a book
/// that is refused for its names, those are told.
fn check_names_and_sorts(call: &Call, bytes: &[u8]) -> Result<(), Failure> {
    let complaints = match check_book(bytes) {
        Ok(complaints) => complaints,
        Err(number) => {
            put(None, lines(&refused_names(bytes)).as_bytes())?;
            return Err(Failure::refused(&call.file, number));
        }
    };
    let is_raw = |complaint: &Complaint| match complaint.is_of_names() {
        true => call.options.raw_names,
        false => call.options.raw_sorts,
    };
    let (let_go, held): (Vec<_>, Vec<_>) = complaints.into_iter().partition(is_raw);
    let first_of_names = let_go.iter().find(|complaint| complaint.is_of_names());
    let first_of_sorts = let_go.iter().find(|complaint| complaint.is_of_sorts());
    for complaint in [first_of_names, first_of_sorts].into_iter().flatten() {
        say(&call.file, format!("warning: {complaint}"))?;
    }
    if held.is_empty() {
        let line = format!("{}: {}\n", call.file.display(), passed(call.options));
        return put(None, line.as_bytes());
    }
    put(None, lines(&held).as_bytes())?;
    let count = match held.len() {
        1 => "1 complaint".into(),
        count => format!("{count} complaints"),
    };
    Err(Failure::input(&call.file, count))
}

fn lines(complaints: &[Complaint]) -> String {
    let line = |complaint: &Complaint| format!("{complaint}\n");
    complaints.iter().map(line).collect()
}

fn passed(options: Options) -> &'static str {
    match (options.raw_names, options.raw_sorts) {
        (false, false) => "the book passes, and its names and sorts are right",
        (true, false) => "the book passes, and its sorts are right",
        (false, true) => "the book passes, and its names are right",
        (true, true) => "the book passes",
    }
}

/// The goals must not run into a book on standard output.
fn put_goals(goals: &[Goal], stdout_is_free: bool) -> Result<(), Failure> {
    let line = |goal: &Goal| format!("{} {} {}\n", goal.node, goal.term, goal.name);
    let lines: String = goals.iter().map(line).collect();
    if stdout_is_free {
        put(None, lines.as_bytes())
    } else {
        put_error(lines.as_bytes())
    }
}

/// Says something of a file that does not end the tool.
fn say(file: &Path, what: String) -> Result<(), Failure> {
    put_error(format!("{}: {what}\n", file.display()).as_bytes())
}

fn put_error(bytes: &[u8]) -> Result<(), Failure> {
    let written = io::stderr().write_all(bytes);
    written.map_err(|error| Failure::file(Path::new("standard error"), error))
}

/// Writes to a file, or to standard output.
fn put(out: Option<&Path>, bytes: &[u8]) -> Result<(), Failure> {
    match out {
        Some(path) => write_whole(path, bytes).map_err(|error| Failure::file(path, error)),
        None => {
            let mut stdout = io::stdout().lock();
            let written = stdout.write_all(bytes).and_then(|()| stdout.flush());
            written.map_err(|error| Failure::file(Path::new("standard output"), error))
        }
    }
}
