//! From text to terms.

use crate::book::Section;
use crate::plan::cursor::Cursor;
use crate::plan::error::{refuse, Position, Result};
use crate::plan::lexer::Token;
use crate::plan::syntax::{Name, Pattern, Place, TermKind, Variable};
use crate::plan::words::{
    ANNOTATED, BUILT_IN, EXISTS, FALSE, FORALL, INT_TYPE, ITE, LET, LITERAL, PATTERN_KEY, TAG, TRUE,
};

/// Terms nested deeper don't fit a book. The limit keeps the parser's own
/// stack small, whatever the text is.
const MOST_NESTING: usize = Section::Terms.most();

const A_TERM: &str = "a term";
const HEAD: &str = "a function, an operator or one of `ite`, `let`, `forall`, `exists`, \
                    `literal`, `builtin`";

/// Gives the place of a term, which stands behind those of its children.
pub fn term(cursor: &mut Cursor) -> Result<Place> {
    check_nesting(cursor)?;
    cursor.nesting += 1;
    let place = if *cursor.token() == Token::Open {
        compound(cursor)?
    } else {
        single(cursor)?
    };
    cursor.nesting -= 1;
    Ok(place)
}

fn check_nesting(cursor: &Cursor) -> Result<()> {
    if cursor.nesting < MOST_NESTING {
        return Ok(());
    }
    let expected = format!("at most {MOST_NESTING} terms in each other");
    refuse(cursor.at(), expected, "one more")
}

/// A term that is a number or a word.
fn single(cursor: &mut Cursor) -> Result<Place> {
    let at = cursor.at();
    let kind = match *cursor.token() {
        Token::Integer(x) => {
            cursor.advance()?;
            TermKind::Integer(x)
        }
        _ => word(cursor.name(A_TERM)?)?,
    };
    Ok(cursor.add_term(at, kind))
}

fn word(name: Name) -> Result<TermKind> {
    match name.text.as_str() {
        TRUE => Ok(TermKind::Boolean(true)),
        FALSE => Ok(TermKind::Boolean(false)),
        TAG => Ok(TermKind::Literal {
            s: TAG.into(),
            typ: Name {
                at: name.at,
                text: INT_TYPE.into(),
            },
        }),
        ITE | LET | FORALL | EXISTS | ANNOTATED | LITERAL | BUILT_IN => {
            let found = format!("{} outside of its parentheses", name.quoted());
            refuse(name.at, A_TERM, found)
        }
        _ => Ok(TermKind::Name(name)),
    }
}

/// A term in parentheses. The cases are functions of their own: terms nest a
/// thousand deep, and the stack is to hold them.
fn compound(cursor: &mut Cursor) -> Result<Place> {
    let opened = cursor.open(A_TERM)?;
    let head = cursor.name(HEAD)?;
    match head.text.as_str() {
        LITERAL => literal(cursor, opened),
        BUILT_IN => built_in(cursor, opened),
        ITE => if_then_else(cursor, opened),
        LET => let_expr(cursor, opened),
        FORALL => quantifier(cursor, opened, true),
        EXISTS => quantifier(cursor, opened, false),
        TRUE | FALSE | ANNOTATED | TAG => refuse(head.at, HEAD, head.quoted()),
        _ => application(cursor, opened, head),
    }
}

fn literal(cursor: &mut Cursor, opened: Position) -> Result<Place> {
    let s = cursor.string("the literal as a string")?;
    let typ = cursor.name("the literal's type")?;
    cursor.close(opened)?;
    Ok(cursor.add_term(opened, TermKind::Literal { s, typ }))
}

fn built_in(cursor: &mut Cursor, opened: Position) -> Result<Place> {
    let operator = cursor.string("the operator as a string")?;
    let args = cursor.rest_of_row(opened, term)?;
    Ok(cursor.add_term(opened, TermKind::BuiltIn { operator, args }))
}

/// Without arguments the name stands without parentheses, as in SMT-LIB.
fn application(cursor: &mut Cursor, opened: Position, head: Name) -> Result<Place> {
    if cursor.is_close() {
        return cursor.unexpected("an argument; without any, the name stands alone");
    }
    let args = cursor.rest_of_row(opened, term)?;
    Ok(cursor.add_term(opened, TermKind::Application { head, args }))
}

fn if_then_else(cursor: &mut Cursor, opened: Position) -> Result<Place> {
    let parts = [term(cursor)?, term(cursor)?, term(cursor)?];
    cursor.close(opened)?;
    Ok(cursor.add_term(opened, TermKind::IfThenElse(parts)))
}

/// A let of a book binds one constant.
fn let_expr(cursor: &mut Cursor, opened: Position) -> Result<Place> {
    const BINDING: &str = "a constant and its term in two parentheses";
    let bindings = cursor.open(BINDING)?;
    let binding = cursor.open(BINDING)?;
    let variable = cursor.name("the constant that is bound")?;
    let rhs = term(cursor)?;
    cursor.close(binding)?;
    cursor.close(bindings)?;
    let body = term(cursor)?;
    cursor.close(opened)?;
    let kind = TermKind::Let {
        variable,
        rhs,
        body,
    };
    Ok(cursor.add_term(opened, kind))
}

fn quantifier(cursor: &mut Cursor, opened: Position, univ: bool) -> Result<Place> {
    let variables = cursor.row("the bound constants in parentheses", variable)?;
    let (body, patterns) = if cursor.opens(ANNOTATED) {
        annotated(cursor)?
    } else {
        (term(cursor)?, Vec::new())
    };
    cursor.close(opened)?;
    let kind = TermKind::Quantifier {
        univ,
        variables,
        body,
        patterns,
    };
    Ok(cursor.add_term(opened, kind))
}

fn variable(cursor: &mut Cursor) -> Result<Variable> {
    let opened = cursor.open("a bound constant and its type in parentheses")?;
    let name = cursor.name("the constant that is bound")?;
    let typ = cursor.name("the constant's type")?;
    cursor.close(opened)?;
    Ok(Variable { name, typ })
}

/// A quantifier's body with its patterns.
fn annotated(cursor: &mut Cursor) -> Result<(Place, Vec<Pattern>)> {
    let opened = cursor.open(A_TERM)?;
    cursor.advance()?;
    let body = term(cursor)?;
    let mut patterns = vec![pattern(cursor)?];
    patterns.extend(cursor.rest_of_row(opened, pattern)?);
    Ok((body, patterns))
}

fn pattern(cursor: &mut Cursor) -> Result<Pattern> {
    match cursor.token() {
        Token::Keyword(key) if key == PATTERN_KEY => {}
        _ => return cursor.unexpected(format!("`{PATTERN_KEY}`")),
    }
    cursor.advance()?;
    const TERMS: &str = "a pattern's name, or its terms in parentheses";
    match cursor.token() {
        Token::Open => Ok(Pattern::InPlace(cursor.row(TERMS, term)?)),
        _ => Ok(Pattern::Named(cursor.name(TERMS)?)),
    }
}
