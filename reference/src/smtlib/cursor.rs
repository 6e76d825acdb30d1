//! Tokens one after another.

use crate::smtlib::lexer::{tokens, Placed, Token};
use crate::smtlib::refused::{refuse, shown, Result};

pub struct Cursor<'t> {
    tokens: Vec<Placed<'t>>,
    /// How many of them are taken.
    taken: usize,
    /// Where the text ends.
    end: usize,
}

impl<'t> Cursor<'t> {
    pub fn new(text: &'t [u8]) -> Result<Cursor<'t>> {
        Ok(Cursor {
            tokens: tokens(text)?,
            taken: 0,
            end: text.len(),
        })
    }

    pub fn peek(&self) -> Option<Token<'t>> {
        self.tokens.get(self.taken).map(|(_, token)| *token)
    }

    /// Where the next token stands, or the text ends.
    pub fn at(&self) -> usize {
        self.tokens.get(self.taken).map_or(self.end, |(at, _)| *at)
    }

    pub fn advance(&mut self) {
        self.taken += 1;
    }

    /// Refuses the next token, since something else should stand there.
    pub fn unexpected<T>(&self, expected: &str) -> Result<T> {
        let found = match self.peek() {
            None => "the end".to_string(),
            Some(Token::Open) => "an opening parenthesis".to_string(),
            Some(Token::Close) => "a closing parenthesis".to_string(),
            Some(Token::Reserved(word)) => format!("the reserved word {}", shown(word)),
            Some(
                Token::Numeral(text)
                | Token::OtherConstant(text)
                | Token::Symbol(text)
                | Token::Keyword(text),
            ) => shown(text),
        };
        refuse(self.at(), format!("{found}, expected {expected}"))
    }

    pub fn open(&mut self, expected: &str) -> Result<()> {
        match self.peek() {
            Some(Token::Open) => {
                self.advance();
                Ok(())
            }
            _ => self.unexpected(expected),
        }
    }

    pub fn is_close(&self) -> bool {
        self.peek() == Some(Token::Close)
    }

    pub fn close(&mut self) -> Result<()> {
        if !self.is_close() {
            return self.unexpected("a closing parenthesis");
        }
        self.advance();
        Ok(())
    }

    /// At least one part, up to the parenthesis that closes their row.
    pub fn row(&mut self, mut part: impl FnMut(&mut Self) -> Result<()>) -> Result<usize> {
        let mut parts = 0;
        while parts == 0 || !self.is_close() {
            part(self)?;
            parts += 1;
        }
        self.close()?;
        Ok(parts)
    }

    pub fn symbol(&mut self, expected: &str) -> Result<&'t [u8]> {
        match self.peek() {
            Some(Token::Symbol(symbol)) => {
                self.advance();
                Ok(symbol)
            }
            _ => self.unexpected(expected),
        }
    }

    pub fn numeral(&mut self) -> Result<usize> {
        let Some(Token::Numeral(digits)) = self.peek() else {
            return self.unexpected("a numeral");
        };
        let number = std::str::from_utf8(digits)
            .ok()
            .and_then(|d| d.parse().ok());
        match number {
            None => refuse(self.at(), format!("{} is too large", shown(digits))),
            Some(number) => {
                self.advance();
                Ok(number)
            }
        }
    }

    /// Nothing stands behind.
    pub fn end(&self) -> Result<()> {
        match self.peek() {
            None => Ok(()),
            Some(_) => self.unexpected("the end"),
        }
    }
}
