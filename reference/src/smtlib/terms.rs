//! The terms of SMT-LIB 2.6, section 3.6, with every name resolved.

use crate::smtlib::cursor::Cursor;
use crate::smtlib::declared::Declared;
use crate::smtlib::lexer::Token;
use crate::smtlib::refused::{refuse, shown, Result};
use crate::smtlib::sorts::sort;

const A_TERM: &str = "a term";
const A_VARIABLE: &str = "a variable";
const AN_IDENTIFIER: &str = "an identifier";
const PATTERN: &[u8] = b":pattern";

/// What the names of a term may mean.
struct Scope<'d, 't> {
    declared: &'d Declared,
    /// The variables bound around the place, outermost first.
    bound: Vec<&'t [u8]>,
}

/// Reads a term whose variables are all bound in it.
pub fn closed_term(cursor: &mut Cursor, declared: &Declared) -> Result<()> {
    let bound = Vec::new();
    term(cursor, &mut Scope { declared, bound })
}

fn term<'t>(cursor: &mut Cursor<'t>, scope: &mut Scope<'_, 't>) -> Result<()> {
    let at = cursor.at();
    match cursor.peek() {
        Some(Token::Numeral(_)) => cursor.advance(),
        Some(Token::OtherConstant(text)) => {
            let text = shown(text);
            return refuse(at, format!("{text}, where only numerals are constants"));
        }
        Some(Token::Symbol(name)) => {
            cursor.advance();
            scope.check(at, name, 0)?;
        }
        Some(Token::Open) => {
            cursor.advance();
            compound(cursor, scope, at)?;
        }
        _ => return cursor.unexpected(A_TERM),
    }
    Ok(())
}

/// A term behind the parenthesis that opened at a place. The cases are
/// functions of their own: terms nest a thousand deep, and the stack is to
/// hold them.
fn compound<'t>(cursor: &mut Cursor<'t>, scope: &mut Scope<'_, 't>, at: usize) -> Result<()> {
    match cursor.peek() {
        Some(Token::Reserved(b"let")) => let_term(cursor, scope),
        Some(Token::Reserved(b"forall" | b"exists")) => quantifier(cursor, scope),
        Some(Token::Reserved(b"!")) => annotated(cursor, scope),
        Some(Token::Reserved(b"as")) => {
            let name = qualified(cursor, scope.declared)?;
            scope.check(at, name, 0)
        }
        _ => application(cursor, scope),
    }
}

/// A name that is applied to at least one term.
fn application<'t>(cursor: &mut Cursor<'t>, scope: &mut Scope<'_, 't>) -> Result<()> {
    let at = cursor.at();
    let name = if cursor.peek() == Some(Token::Open) {
        cursor.advance();
        qualified(cursor, scope.declared)?
    } else {
        cursor.symbol(AN_IDENTIFIER)?
    };
    let arguments = cursor.row(|cursor| term(cursor, scope))?;
    scope.check(at, name, arguments)
}

/// The rest of `(as name sort)`.
fn qualified<'t>(cursor: &mut Cursor<'t>, declared: &Declared) -> Result<&'t [u8]> {
    if cursor.peek() != Some(Token::Reserved(b"as")) {
        return cursor.unexpected(AN_IDENTIFIER);
    }
    cursor.advance();
    let name = cursor.symbol(AN_IDENTIFIER)?;
    sort(cursor, declared)?;
    cursor.close()?;
    Ok(name)
}

/// A let binds its variables side by side: none is bound in the terms that
/// they are bound to, and no two are the same.
fn let_term<'t>(cursor: &mut Cursor<'t>, scope: &mut Scope<'_, 't>) -> Result<()> {
    cursor.advance();
    cursor.open("the variables of a let")?;
    let mut variables = Vec::new();
    cursor.row(|cursor| {
        cursor.open(A_VARIABLE)?;
        let at = cursor.at();
        let name = cursor.symbol(A_VARIABLE)?;
        if variables.contains(&name) {
            return refuse(at, format!("{} is bound twice", shown(name)));
        }
        variables.push(name);
        term(cursor, scope)?;
        cursor.close()
    })?;
    body(cursor, scope, variables)
}

/// The same variable may stand twice: the later one is meant.
fn quantifier<'t>(cursor: &mut Cursor<'t>, scope: &mut Scope<'_, 't>) -> Result<()> {
    cursor.advance();
    cursor.open("the variables of a quantifier")?;
    let mut variables = Vec::new();
    cursor.row(|cursor| {
        cursor.open(A_VARIABLE)?;
        variables.push(cursor.symbol(A_VARIABLE)?);
        sort(cursor, scope.declared)?;
        cursor.close()
    })?;
    body(cursor, scope, variables)
}

/// The rest of a term that binds variables.
fn body<'t>(
    cursor: &mut Cursor<'t>,
    scope: &mut Scope<'_, 't>,
    variables: Vec<&'t [u8]>,
) -> Result<()> {
    let around = scope.bound.len();
    scope.bound.extend(variables);
    term(cursor, scope)?;
    scope.bound.truncate(around);
    cursor.close()
}

/// A term and its patterns.
fn annotated<'t>(cursor: &mut Cursor<'t>, scope: &mut Scope<'_, 't>) -> Result<()> {
    cursor.advance();
    term(cursor, scope)?;
    cursor.row(|cursor| {
        if cursor.peek() != Some(Token::Keyword(PATTERN)) {
            return cursor.unexpected("a pattern");
        }
        cursor.advance();
        cursor.open("the terms of a pattern")?;
        cursor.row(|cursor| term(cursor, scope)).map(|_| ())
    })?;
    Ok(())
}

impl Scope<'_, '_> {
    /// The name at a place means something that takes so many arguments.
    fn check(&self, at: usize, name: &[u8], given: usize) -> Result<()> {
        if !self.declared.resolves {
            return Ok(());
        }
        let takes = if self.bound.contains(&name) {
            Some((0, Some(0)))
        } else {
            self.declared.function(name)
        };
        let Some((least, most)) = takes else {
            return refuse(at, format!("{} is not declared", shown(name)));
        };
        if given < least || most.is_some_and(|most| most < given) {
            let name = shown(name);
            return refuse(at, format!("{name} does not take {given} arguments"));
        }
        Ok(())
    }
}
