//! The tokens of SMT-LIB 2.6, section 3.1.

use crate::smtlib::refused::{refuse, shown, Result};
use crate::smtlib::words::{is_reserved, is_symbol_byte};

#[derive(Clone, Copy, Debug, PartialEq, Eq)]
pub enum Token<'t> {
    Open,
    Close,
    Numeral(&'t [u8]),
    /// A decimal, hexadecimal, binary or string constant.
    OtherConstant(&'t [u8]),
    /// A reserved word, command names among them.
    Reserved(&'t [u8]),
    /// A symbol without its bars: with them it is the same one.
    Symbol(&'t [u8]),
    /// A keyword with its colon.
    Keyword(&'t [u8]),
}

/// A token, and how many bytes stand before it.
pub type Placed<'t> = (usize, Token<'t>);

const BAR: u8 = b'|';
const QUOTE: u8 = b'"';
const BACKSLASH: u8 = b'\\';
const COMMENT: u8 = b';';
const LINE_ENDS: [u8; 2] = [b'\n', b'\r'];
const WHITE_SPACE: [u8; 4] = [b'\t', b'\n', b'\r', b' '];
/// Not printable, though above those that are.
const DELETE: u8 = 0x7F;

pub fn tokens(text: &[u8]) -> Result<Vec<Placed<'_>>> {
    let mut lexer = Lexer { text, at: 0 };
    let mut tokens = Vec::new();
    while let Some(first) = lexer.skip_space() {
        let at = lexer.at;
        tokens.push((at, lexer.token(first)?));
    }
    Ok(tokens)
}

struct Lexer<'t> {
    text: &'t [u8],
    /// How much is read.
    at: usize,
}

impl<'t> Lexer<'t> {
    /// Skips white space and comments, and gives the byte behind.
    fn skip_space(&mut self) -> Option<u8> {
        loop {
            self.take_while(|byte| WHITE_SPACE.contains(&byte));
            match self.peek() {
                Some(COMMENT) => {
                    self.take_while(|byte| !LINE_ENDS.contains(&byte));
                }
                next => return next,
            }
        }
    }

    fn token(&mut self, first: u8) -> Result<Token<'t>> {
        let at = self.at;
        let token = match first {
            b'(' | b')' => {
                self.at += 1;
                // Nothing has to stand behind a parenthesis.
                return Ok(if first == b'(' {
                    Token::Open
                } else {
                    Token::Close
                });
            }
            BAR => self.quoted_symbol()?,
            QUOTE => self.string()?,
            b'#' => self.digits_of_base()?,
            b':' => self.keyword()?,
            b'0'..=b'9' => self.number()?,
            _ if is_symbol_byte(first) => match self.take_while(is_symbol_byte) {
                word if is_reserved(word) => Token::Reserved(word),
                word => Token::Symbol(word),
            },
            _ => return refuse(at, format!("{} begins no token", shown(&[first]))),
        };
        match self.peek() {
            Some(next) if !may_follow(next) => {
                let token = shown(&self.text[at..self.at]);
                refuse(self.at, format!("{} right behind {token}", shown(&[next])))
            }
            _ => Ok(token),
        }
    }

    /// Between bars stands anything but a bar or a backslash.
    fn quoted_symbol(&mut self) -> Result<Token<'t>> {
        let opened = self.at;
        self.at += 1;
        let content = self.take_while(|byte| byte != BAR && byte != BACKSLASH);
        check_printable(content, opened + 1)?;
        match self.peek() {
            Some(BAR) => {
                self.at += 1;
                Ok(Token::Symbol(content))
            }
            Some(_) => refuse(self.at, "a backslash between bars"),
            None => refuse(opened, "a bar without its second one"),
        }
    }

    /// Two quotes inside stand for one.
    fn string(&mut self) -> Result<Token<'t>> {
        let opened = self.at;
        loop {
            self.at += 1;
            self.take_while(|byte| byte != QUOTE);
            if self.peek().is_none() {
                return refuse(opened, "a string without its end");
            }
            self.at += 1;
            if self.peek() != Some(QUOTE) {
                break;
            }
        }
        let string = &self.text[opened..self.at];
        check_printable(string, opened)?;
        Ok(Token::OtherConstant(string))
    }

    /// A hexadecimal or a binary.
    fn digits_of_base(&mut self) -> Result<Token<'t>> {
        let at = self.at;
        self.at += 1;
        self.take_while(is_symbol_byte);
        let word = &self.text[at..self.at];
        let is_digit: fn(&u8) -> bool = match word.get(1) {
            Some(b'x') => u8::is_ascii_hexdigit,
            Some(b'b') => |byte| matches!(byte, b'0' | b'1'),
            _ => return refuse(at, format!("{} begins no token", shown(word))),
        };
        let digits = &word[2..];
        if digits.is_empty() || !digits.iter().all(is_digit) {
            return refuse(at, format!("{} is no number of its base", shown(word)));
        }
        Ok(Token::OtherConstant(word))
    }

    fn keyword(&mut self) -> Result<Token<'t>> {
        let at = self.at;
        self.at += 1;
        let word = self.take_while(is_symbol_byte);
        if word.first().is_none_or(u8::is_ascii_digit) {
            return refuse(at, "a colon without a simple symbol");
        }
        Ok(Token::Keyword(&self.text[at..self.at]))
    }

    /// A numeral, or a decimal: a numeral, a point and digits.
    fn number(&mut self) -> Result<Token<'t>> {
        let at = self.at;
        let word = self.take_while(is_symbol_byte);
        let point = word.iter().position(|byte| *byte == b'.');
        let (whole, fraction) = match point {
            None => (word, None),
            Some(point) => (&word[..point], Some(&word[point + 1..])),
        };
        for digits in [Some(whole), fraction].into_iter().flatten() {
            if digits.is_empty() || !digits.iter().all(u8::is_ascii_digit) {
                return refuse(at, format!("{} is no number", shown(word)));
            }
        }
        match (whole, fraction) {
            ([b'0', _, ..], _) => refuse(at, format!("{} begins with a zero", shown(word))),
            (_, None) => Ok(Token::Numeral(word)),
            (_, Some(_)) => Ok(Token::OtherConstant(word)),
        }
    }

    fn peek(&self) -> Option<u8> {
        self.text.get(self.at).copied()
    }

    fn take_while(&mut self, is_part: impl Fn(u8) -> bool) -> &'t [u8] {
        let rest = &self.text[self.at..];
        let length = rest.iter().take_while(|byte| is_part(**byte)).count();
        self.at += length;
        &rest[..length]
    }
}

/// Two tokens have white space, a comment or a parenthesis between them.
fn may_follow(byte: u8) -> bool {
    WHITE_SPACE.contains(&byte) || [b'(', b')', COMMENT].contains(&byte)
}

/// Printable characters and white space; `at` is where the text begins.
fn check_printable(text: &[u8], at: usize) -> Result<()> {
    let is_bad = |byte: &u8| {
        let is_control = *byte < b' ' || *byte == DELETE;
        is_control && !WHITE_SPACE.contains(byte)
    };
    match text.iter().position(is_bad) {
        Some(bad) => refuse(
            at + bad,
            format!("{} is not printable", shown(&text[bad..=bad])),
        ),
        None => Ok(()),
    }
}
