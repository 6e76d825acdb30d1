//! From bytes to tokens with their places.

use crate::book_test::{FIRST_LETTER, LAST_LETTER};
use crate::plan::error::{refuse, Position, Result};
use crate::plan::words::{is_integer, may_stand_in_bars, string, symbol};
use crate::smtlib::words::is_symbol_byte;
use std::fmt;

#[derive(Clone, Debug, PartialEq, Eq)]
pub enum Token {
    Open,
    Close,
    /// A symbol's text, without the bars if it had any.
    Symbol(String),
    /// A keyword with its colon.
    Keyword(String),
    Integer(i64),
    String(String),
    End,
}

impl fmt::Display for Token {
    fn fmt(&self, f: &mut fmt::Formatter) -> fmt::Result {
        match self {
            Token::Open => write!(f, "`(`"),
            Token::Close => write!(f, "`)`"),
            Token::Symbol(text) => write!(f, "`{}`", symbol(text)),
            Token::Keyword(text) => write!(f, "`{text}`"),
            Token::Integer(x) => write!(f, "`{x}`"),
            Token::String(text) => write!(f, "{}", string(text)),
            Token::End => write!(f, "the end of the text"),
        }
    }
}

const LINE_END: u8 = b'\n';
const COMMENT: u8 = b';';
const QUOTE: u8 = b'"';
const BAR: u8 = b'|';
const COLON: u8 = b':';

#[derive(Clone)]
pub struct Lexer<'t> {
    text: &'t [u8],
    next: usize,
    at: Position,
}

impl<'t> Lexer<'t> {
    pub fn new(text: &'t [u8]) -> Lexer<'t> {
        Lexer {
            text,
            next: 0,
            at: Position::START,
        }
    }

    /// The next token and where it begins; at the end always `End`.
    pub fn token(&mut self) -> Result<(Position, Token)> {
        self.skip_blanks();
        let at = self.at;
        let token = match self.peek() {
            None => Token::End,
            Some(b'(') => self.single(Token::Open),
            Some(b')') => self.single(Token::Close),
            Some(QUOTE) => Token::String(self.string()?),
            Some(BAR) => Token::Symbol(self.barred_symbol()?),
            Some(COLON) => self.keyword()?,
            Some(byte) if is_symbol_byte(byte) => self.word()?,
            Some(_) => return self.unexpected("a parenthesis, name, number or string"),
        };
        Ok((at, token))
    }

    fn peek(&self) -> Option<u8> {
        self.text.get(self.next).copied()
    }

    fn advance(&mut self) {
        if self.peek() == Some(LINE_END) {
            self.at.line += 1;
            self.at.column = 1;
        } else {
            self.at.column += 1;
        }
        self.next += 1;
    }

    fn advance_while(&mut self, goes_on: impl Fn(u8) -> bool) -> String {
        let mut passed = String::new();
        while let Some(byte) = self.peek().filter(|byte| goes_on(*byte)) {
            passed.push(char::from(byte));
            self.advance();
        }
        passed
    }

    fn skip_blanks(&mut self) {
        while let Some(byte) = self.peek() {
            match byte {
                b' ' | b'\t' | b'\r' | LINE_END => self.advance(),
                // The text itself is of no use, so none is kept.
                COMMENT => {
                    while self.peek().is_some_and(|byte| byte != LINE_END) {
                        self.advance();
                    }
                }
                _ => return,
            }
        }
    }

    fn single(&mut self, token: Token) -> Token {
        self.advance();
        token
    }

    /// Two quotes in a row are a quote of the string.
    fn string(&mut self) -> Result<String> {
        let begin = self.at;
        let expected = || format!("a letter or the closing `\"` of the string at {begin}");
        let mut content = String::new();
        loop {
            self.advance();
            content += &self.advance_while(|byte| is_letter(byte) && byte != QUOTE);
            if self.peek() != Some(QUOTE) {
                return self.unexpected(expected());
            }
            self.advance();
            if self.peek() != Some(QUOTE) {
                return Ok(content);
            }
            content.push(char::from(QUOTE));
        }
    }

    fn barred_symbol(&mut self) -> Result<String> {
        let begin = self.at;
        self.advance();
        let content =
            self.advance_while(|byte| is_letter(byte) && may_stand_in_bars(char::from(byte)));
        if self.peek() != Some(BAR) {
            let expected = format!("a letter but `\\` or the closing `|` of the name at {begin}");
            return self.unexpected(expected);
        }
        self.advance();
        Ok(content)
    }

    fn keyword(&mut self) -> Result<Token> {
        self.advance();
        let word = self.advance_while(is_symbol_byte);
        if word.is_empty() {
            return self.unexpected("a keyword's word behind `:`");
        }
        Ok(Token::Keyword(format!("{}{word}", char::from(COLON))))
    }

    /// A number or a symbol without bars.
    fn word(&mut self) -> Result<Token> {
        let begin = self.at;
        let word = self.advance_while(is_symbol_byte);
        let refused = |expected: String| refuse(begin, expected, quoted(&word));
        if is_integer(&word) {
            match word.parse::<i64>() {
                Err(_) => refused(format!("a number from {} to {}", i64::MIN, i64::MAX)),
                Ok(x) if x.to_string() != word => refused(format!("the number written `{x}`")),
                Ok(x) => Ok(Token::Integer(x)),
            }
        } else if word.starts_with(|letter: char| letter.is_ascii_digit()) {
            refused("a number, or a name that begins with no digit".into())
        } else {
            Ok(Token::Symbol(word))
        }
    }

    /// The error that the byte at hand is.
    fn unexpected<T>(&self, expected: impl Into<String>) -> Result<T> {
        let found = match self.peek() {
            None => Token::End.to_string(),
            Some(LINE_END) => "the end of the line".into(),
            Some(byte) if is_letter(byte) => quoted(&char::from(byte).to_string()),
            Some(byte) => format!("byte 0x{byte:02X}"),
        };
        refuse(self.at, expected, found)
    }
}

/// What a book's letters may be.
fn is_letter(byte: u8) -> bool {
    (FIRST_LETTER..=LAST_LETTER).contains(&byte)
}

fn quoted(text: &str) -> String {
    format!("`{text}`")
}
