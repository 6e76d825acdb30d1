//! Writes random books that are told apart and have good sorts, for the test
//! that solvers know every name in their texts; and one with a clash.
#![deny(warnings)]

use leskofar_reference::apart_books::apart_book;
use leskofar_reference::book::INT;
use leskofar_reference::book_test::check;
use leskofar_reference::maker::Maker;
use leskofar_reference::program::{Program, RExpr, ROperator};
use leskofar_reference::random::Random;
use leskofar_reference::sane_books::sane_book;
use std::collections::BTreeSet;
use std::env::args;
use std::fs;
use std::io;
use std::path::Path;
use std::process::ExitCode;

const HELP: &str = "\
usage: apart DIRECTORY COUNT

Writes COUNT random books that are told apart into DIRECTORY: N.book, and
N.questions with a line NODE TERM for each question. Then clash.book and
clash.questions: a question below two nodes that have a constant dye each.
";
const SEED: u64 = 20_261_118;
const WRONG_USAGE: u8 = 2;
/// Questions of a book.
const QUESTIONS: usize = 4;

/// A question: a node and a term.
type Question = [usize; 2];

fn main() -> ExitCode {
    let arguments: Vec<String> = args().skip(1).collect();
    let parsed = match &arguments[..] {
        [directory, count] => count.parse().ok().map(|count| (directory, count)),
        _ => None,
    };
    let Some((directory, count)) = parsed else {
        eprint!("{HELP}");
        return ExitCode::from(WRONG_USAGE);
    };
    match write_books(Path::new(directory), count) {
        Ok(()) => ExitCode::SUCCESS,
        Err(error) => {
            eprintln!("{directory}: {error}");
            ExitCode::from(WRONG_USAGE)
        }
    }
}

fn write_books(directory: &Path, count: usize) -> io::Result<()> {
    let mut random = Random::new(SEED);
    for number in 1..=count {
        let book = askable_book(&mut random).book();
        let program = check(&book).map_err(|refusal| io::Error::other(refusal.to_string()))?;
        let questions = questions(&mut random, &program);
        write(directory, &number.to_string(), &book, &questions)?;
    }
    let (m, question) = clashing_book(&mut random);
    write(directory, "clash", &m.book(), &[question])
}

fn write(directory: &Path, name: &str, book: &[u8], questions: &[Question]) -> io::Result<()> {
    let lines = questions
        .iter()
        .map(|[node, goal]| format!("{node} {goal}\n"));
    fs::write(directory.join(format!("{name}.book")), book)?;
    fs::write(
        directory.join(format!("{name}.questions")),
        lines.collect::<String>(),
    )
}

/// A book whose every question can be asked.
fn askable_book(random: &mut Random) -> Maker {
    loop {
        let m = apart_book(random, sane_book);
        let is_fit = |program: Program| {
            let has_axioms = program.axioms.iter().all(|axiom| axiom.term.is_some());
            has_axioms && patterns_apply(&program)
        };
        if check(&m.book()).is_ok_and(is_fit) {
            return m;
        }
    }
}

/// What z3 takes for a pattern: functions of something, where it is printed.
fn patterns_apply(program: &Program) -> bool {
    let applies = |term: &usize| match &program.terms[*term] {
        RExpr::FuncAppl {
            op: ROperator::UserDefinedFunction(_),
            args,
        } => !args.is_empty(),
        _ => false,
    };
    program.terms.iter().all(|term| match term {
        RExpr::QuantifierExpr { vv, patterns, .. } if !vv.is_empty() => patterns
            .iter()
            .all(|pattern| program.patterns[*pattern].exprs.iter().all(applies)),
        _ => true,
    })
}

/// Random nodes, and terms that nothing refers to: those are Booleans.
fn questions(random: &mut Random, program: &Program) -> Vec<Question> {
    let terms = 0..program.terms.len();
    let axioms = program.axioms.iter().filter_map(|axiom| axiom.term);
    let nodes = program.nodes().iter().map(|node| node.expr);
    let referred: BTreeSet<usize> = terms
        .clone()
        .flat_map(|term| program.children(term))
        .chain(axioms)
        .chain(nodes)
        .collect();
    let goals: Vec<usize> = terms.filter(|term| !referred.contains(term)).collect();
    let mut question = |_| [random.up_to(program.nodes().len()), random.pick(&goals)];
    (0..QUESTIONS).map(&mut question).collect()
}

/// A book that is told apart, with two constants of one name more, which are
/// live at once below two nodes more.
fn clashing_book(random: &mut Random) -> (Maker, Question) {
    let mut m = askable_book(random);
    let constants = [(); 2].map(|()| m.constant("dye", INT));
    let mut node = 0;
    for constant in constants {
        let args = [m.id(constant), m.integer(40)];
        let premise = m.built_in("=", &args);
        node = m.context(node, premise);
    }
    let goal = m.boolean(false);
    (m, [node as usize, goal as usize])
}
