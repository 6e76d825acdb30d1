//! The token at hand, and the steps that items and terms are parsed with.

use crate::plan::error::{refuse, Position, Result};
use crate::plan::lexer::{Lexer, Token};
use crate::plan::syntax::{Name, Place, Term, TermKind};

pub struct Cursor<'t> {
    lexer: Lexer<'t>,
    token: Token,
    at: Position,
    /// The terms so far.
    pub terms: Vec<Term>,
    /// How many terms the one at hand stands in.
    pub nesting: usize,
}

impl<'t> Cursor<'t> {
    pub fn new(text: &'t [u8]) -> Result<Cursor<'t>> {
        let mut lexer = Lexer::new(text);
        let (at, token) = lexer.token()?;
        Ok(Cursor {
            lexer,
            token,
            at,
            terms: Vec::new(),
            nesting: 0,
        })
    }

    pub fn token(&self) -> &Token {
        &self.token
    }

    pub fn at(&self) -> Position {
        self.at
    }

    /// Goes on to the next token.
    pub fn advance(&mut self) -> Result<()> {
        (self.at, self.token) = self.lexer.token()?;
        Ok(())
    }

    pub fn add_term(&mut self, at: Position, kind: TermKind) -> Place {
        self.terms.push(Term { at, kind });
        self.terms.len() - 1
    }

    /// The error that the token at hand is.
    pub fn unexpected<T>(&self, expected: impl Into<String>) -> Result<T> {
        refuse(self.at, expected, self.token.to_string())
    }

    /// Takes a `(` and gives its place.
    pub fn open(&mut self, expected: &str) -> Result<Position> {
        let at = self.at;
        if self.token != Token::Open {
            return self.unexpected(expected);
        }
        self.advance()?;
        Ok(at)
    }

    /// A `(` is at hand, and `word` comes behind it.
    pub fn opens(&self, word: &str) -> bool {
        let is_word = |(_, token)| matches!(token, Token::Symbol(text) if text == word);
        self.token == Token::Open && self.lexer.clone().token().is_ok_and(is_word)
    }

    pub fn is_close(&self) -> bool {
        self.token == Token::Close
    }

    /// Takes the `)` of the `(` at `opened`.
    pub fn close(&mut self, opened: Position) -> Result<()> {
        if !self.is_close() {
            return self.unexpected(closing(opened));
        }
        self.advance()
    }

    pub fn name(&mut self, expected: &str) -> Result<Name> {
        let Token::Symbol(text) = &self.token else {
            return self.unexpected(expected);
        };
        let name = Name {
            at: self.at,
            text: text.clone(),
        };
        self.advance()?;
        Ok(name)
    }

    pub fn string(&mut self, expected: &str) -> Result<String> {
        let Token::String(text) = &self.token else {
            return self.unexpected(expected);
        };
        let text = text.clone();
        self.advance()?;
        Ok(text)
    }

    /// What stands in parentheses, each part read by `part`.
    pub fn row<T>(
        &mut self,
        expected: &str,
        part: impl Fn(&mut Self) -> Result<T>,
    ) -> Result<Vec<T>> {
        let opened = self.open(expected)?;
        self.rest_of_row(opened, part)
    }

    /// The parts up to the `)` of the `(` at `opened`.
    pub fn rest_of_row<T>(
        &mut self,
        opened: Position,
        part: impl Fn(&mut Self) -> Result<T>,
    ) -> Result<Vec<T>> {
        let mut parts = Vec::new();
        while !self.is_close() {
            if self.token == Token::End {
                return self.unexpected(closing(opened));
            }
            parts.push(part(self)?);
        }
        self.advance()?;
        Ok(parts)
    }

    /// One of the keywords not given yet, taken out of them, or the item's
    /// end. Each may be given once, in any order.
    pub fn attribute(
        &mut self,
        opened: Position,
        keys: &mut Vec<&'static str>,
    ) -> Result<Option<&'static str>> {
        if self.is_close() {
            self.advance()?;
            return Ok(None);
        }
        let given = match &self.token {
            Token::Keyword(text) => keys.iter().position(|key| key == text),
            _ => None,
        };
        let Some(given) = given else {
            let keys: String = keys.iter().map(|key| format!("`{key}` or ")).collect();
            return self.unexpected(keys + &closing(opened));
        };
        self.advance()?;
        Ok(Some(keys.swap_remove(given)))
    }
}

fn closing(opened: Position) -> String {
    format!("the `)` for the `(` at {opened}")
}
