//! The strict reader of SMT-LIB 2.6 beside a list of calls on a book with sane
//! operators: it reads every line of their text, and the prints of the goals,
//! and finds each declared symbol to be a name of the book without its bars.

use crate::print_call::{Print, FLAGS, ONE_LINE};
use crate::sane::{reading, Reading, Symbols};
use crate::scratch_bytes::LEAST;
use crate::tally::Met;
use leskofar_reference::book_test::check;
use leskofar_reference::commands::LINE_END;
use leskofar_reference::program::Program;
use leskofar_reference::smtlib::Reader;

/// How the text of a book is to be read; not at all where it is refused, or its
/// operators are not sane.
pub fn reading_of(book: &[u8]) -> Option<Reading> {
    let program = check(book).ok()?;
    reading(&program)
}

pub fn reader(reading: Reading) -> Reader {
    let mut reader = Reader::default();
    if reading == Reading::Grammar {
        reader.read_grammar_alone();
    }
    reader
}

/// Reads all text of a session, and gives how many commands it has. What is no
/// command is a comment.
pub fn read_whole(reading: Reading, text: &[u8]) -> Result<usize, String> {
    reader(reading)
        .read(text)
        .map_err(|refused| format!("strictly, {refused}, in {}", text.escape_ascii()))
}

/// Flag and indent of each print.
const LAYOUTS: [(u32, u64); 3] = [(ONE_LINE, 0), (FLAGS[0], 0), (FLAGS[0], 7)];
/// The first number that would be negative with a sign.
const TAG: u64 = 1 << 63;

pub struct Strict {
    reader: Reader,
    symbols: Symbols,
}

impl Strict {
    /// None where the book's operators are not sane.
    pub fn new(program: &Program) -> Option<Strict> {
        let reading = reading(program)?;
        Some(Strict {
            reader: reader(reading),
            symbols: Symbols::of(program),
        })
    }

    /// Goes on with a book that has grown, if it can.
    pub fn go_on(mut self, program: &Program) -> Option<Strict> {
        if reading(program)? == Reading::Grammar {
            self.reader.read_grammar_alone();
        }
        self.symbols = Symbols::of(program);
        Some(self)
    }

    /// Reads a text, each line of which is one command, and gives how many.
    pub fn read(&mut self, text: &[u8]) -> Result<usize, String> {
        let known = [self.reader.sorts.len(), self.reader.functions.len()];
        let lines = self.read_lines(text)?;
        let [sorts, functions] = known;
        let sorts = self.reader.sorts[sorts..].iter();
        let functions = self.reader.functions[functions..].iter();
        let mut strangers = sorts
            .filter(|sort| !self.symbols.sorts.contains(*sort))
            .chain(functions.filter(|function| !self.symbols.functions.contains(*function)));
        match strangers.next() {
            Some(symbol) => Err(format!("no name is {}", symbol.escape_ascii())),
            None => Ok(lines),
        }
    }

    fn read_lines(&mut self, text: &[u8]) -> Result<usize, String> {
        let mut lines = 0;
        for line in text.split_inclusive(|byte| *byte == LINE_END) {
            let line_shown = line.escape_ascii();
            match self.reader.read(line) {
                Ok(1) if line.ends_with(&[LINE_END]) => lines += 1,
                Ok(commands) => return Err(format!("{commands} commands in {line_shown}")),
                Err(refused) => return Err(format!("strictly, {refused}, in {line_shown}")),
            }
        }
        Ok(lines)
    }

    /// Prints a goal that is being asked, all of whose symbols are declared
    /// then, in both layouts. Reads each print as a term and in an assertion,
    /// and gives how many there are.
    pub fn read_prints(
        &mut self,
        book: &[u8],
        program: &Program,
        goal: u32,
    ) -> Result<usize, String> {
        for (newlines, indent) in LAYOUTS {
            let call = Print {
                book,
                term: goal,
                tag: TAG,
                newlines,
                indent,
            };
            let room = call.length(program) as usize;
            let left = call.compare(room, &LEAST, &mut Met::default())?;
            let asserted = [b"(assert ", left.text(), b")"].concat();
            self.reader
                .read_term(left.text())
                .and_then(|()| self.reader.read(&asserted))
                .map_err(|refused| format!("strictly, {refused}, in a print by {call:?}"))?;
        }
        Ok(LAYOUTS.len())
    }
}
