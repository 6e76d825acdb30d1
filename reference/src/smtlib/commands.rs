//! The commands of SMT-LIB 2.6, section 3.9, and what they declare.

use crate::smtlib::cursor::Cursor;
use crate::smtlib::declared::Declared;
use crate::smtlib::lexer::Token;
use crate::smtlib::refused::{refuse, shown, Result};
use crate::smtlib::sorts::sort;
use crate::smtlib::terms::closed_term;
use crate::smtlib::words::is_for_solvers;

/// A reader of text that goes to a solver, piece by piece.
#[derive(Default)]
pub struct Reader {
    declared: Declared,
    /// The symbols of all declarations so far, popped or not, without bars.
    pub sorts: Vec<Vec<u8>>,
    pub functions: Vec<Vec<u8>>,
}

/// What a command leaves, once it is read whole.
enum Change<'t> {
    Nothing,
    Push(usize),
    Pop(usize),
    /// A sort or a function, and how many arguments it takes.
    Sort(&'t [u8], usize),
    Function(&'t [u8], usize),
}

impl Reader {
    /// From now on no name is resolved: it may be declared twice, or be a
    /// solver's, and stands for whatever it is used as. The grammar and the
    /// levels are held to as before.
    pub fn read_grammar_alone(&mut self) {
        self.declared.resolves = false;
    }

    /// Reads commands to the end of a text, and gives how many there are. Text
    /// that is no row of tokens is refused whole; else a command that is
    /// refused changes nothing, and those before it were read.
    pub fn read(&mut self, text: &[u8]) -> Result<usize> {
        let mut cursor = Cursor::new(text)?;
        let mut commands = 0;
        while cursor.peek().is_some() {
            self.command(&mut cursor)?;
            commands += 1;
        }
        Ok(commands)
    }

    /// Reads a text that is a term by what is declared.
    pub fn read_term(&self, text: &[u8]) -> Result<()> {
        let mut cursor = Cursor::new(text)?;
        closed_term(&mut cursor, &self.declared)?;
        cursor.end()
    }

    fn command(&mut self, cursor: &mut Cursor) -> Result<()> {
        cursor.open("a command")?;
        let Some(Token::Reserved(word)) = cursor.peek() else {
            return cursor.unexpected("the name of a command");
        };
        let change = match word {
            b"push" => self.push(cursor)?,
            b"pop" => self.pop(cursor)?,
            b"declare-sort" => self.declare_sort(cursor)?,
            b"declare-fun" => self.declare_function(cursor)?,
            b"assert" => {
                cursor.advance();
                closed_term(cursor, &self.declared)?;
                Change::Nothing
            }
            b"check-sat" | b"get-model" => {
                cursor.advance();
                Change::Nothing
            }
            _ => return cursor.unexpected("a command that is known here"),
        };
        cursor.close()?;
        match change {
            Change::Nothing => {}
            Change::Push(levels) => self.declared.push(levels),
            Change::Pop(levels) => self.declared.pop(levels),
            Change::Sort(name, takes) => {
                self.declared.declare_sort(name, takes);
                self.sorts.push(name.into());
            }
            Change::Function(name, takes) => {
                self.declared.declare_function(name, takes);
                self.functions.push(name.into());
            }
        }
        Ok(())
    }

    fn push<'t>(&self, cursor: &mut Cursor) -> Result<Change<'t>> {
        cursor.advance();
        let at = cursor.at();
        let levels = cursor.numeral()?;
        if levels > self.declared.most_pushed() {
            return refuse(at, format!("{levels} levels are too many"));
        }
        Ok(Change::Push(levels))
    }

    /// The first level is never popped.
    fn pop<'t>(&self, cursor: &mut Cursor) -> Result<Change<'t>> {
        cursor.advance();
        let at = cursor.at();
        let levels = cursor.numeral()?;
        let most = self.declared.most_popped();
        if levels > most {
            return refuse(at, format!("{levels} levels to pop, and there are {most}"));
        }
        Ok(Change::Pop(levels))
    }

    fn declare_sort<'t>(&self, cursor: &mut Cursor<'t>) -> Result<Change<'t>> {
        cursor.advance();
        let name = self.new_name(cursor, |name| self.declared.sort(name).is_some())?;
        Ok(Change::Sort(name, cursor.numeral()?))
    }

    fn declare_function<'t>(&self, cursor: &mut Cursor<'t>) -> Result<Change<'t>> {
        cursor.advance();
        let name = self.new_name(cursor, |name| self.declared.function(name).is_some())?;
        cursor.open("the sorts of the arguments")?;
        let mut takes = 0;
        while !cursor.is_close() {
            sort(cursor, &self.declared)?;
            takes += 1;
        }
        cursor.close()?;
        sort(cursor, &self.declared)?;
        Ok(Change::Function(name, takes))
    }

    /// A symbol that is not live yet, and may be declared.
    fn new_name<'t>(
        &self,
        cursor: &mut Cursor<'t>,
        is_live: impl Fn(&[u8]) -> bool,
    ) -> Result<&'t [u8]> {
        let at = cursor.at();
        let name = cursor.symbol("a symbol")?;
        if self.declared.resolves && is_for_solvers(name) {
            return refuse(at, format!("{} is for solvers to declare", shown(name)));
        }
        if self.declared.resolves && is_live(name) {
            return refuse(at, format!("{} is declared already", shown(name)));
        }
        Ok(name)
    }
}
