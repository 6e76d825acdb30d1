//! From text to the items of a plan.

use crate::plan::cursor::Cursor;
use crate::plan::error::{refuse, Position, Result};
use crate::plan::lexer::Token;
use crate::plan::syntax::{Item, ItemKind, Name, Syntax};
use crate::plan::term_parser::term;
use crate::plan::words::{
    AXIOM, CONSTANT, EXPLAINED_BY_KEY, EXPLAINS_KEY, FUNCTION, GOAL, LETTERS, LISTS, NAME_KEY,
    NODE, PATTERN, TERM, TRACE_KEY, TYPE,
};

const ITEM: &str = "`type`, `constant`, `function`, `axiom`, `pattern`, `term`, `node`, `goal`, \
                    `letters` or `lists`";
const TYPE_NAME: &str = "a type's name";
const PARENT: &str = "the name of the node above, or `root`";
const ASKED_AT: &str = "the name of the node where it is asked, or `root`";

pub fn parse(text: &[u8]) -> Result<Syntax> {
    let mut cursor = Cursor::new(text)?;
    let mut items = Vec::new();
    while *cursor.token() != Token::End {
        items.push(Item {
            kind: item(&mut cursor)?,
            terms_end: cursor.terms.len(),
        });
    }
    Ok(Syntax {
        items,
        terms: cursor.terms,
    })
}

fn item(cursor: &mut Cursor) -> Result<ItemKind> {
    let opened = cursor.open("an item's `(`")?;
    let word = cursor.name(ITEM)?;
    match word.text.as_str() {
        LETTERS => {
            let letters = cursor.string("the letters as a string")?;
            cursor.close(opened)?;
            Ok(ItemKind::Letters {
                at: word.at,
                letters,
            })
        }
        LISTS => Ok(ItemKind::Lists {
            at: word.at,
            numbers: cursor.rest_of_row(opened, list_entry)?,
        }),
        TYPE => Ok(ItemKind::Type {
            name: cursor.name("the type's name")?,
            given: given_name(cursor, opened)?,
        }),
        CONSTANT => Ok(ItemKind::Constant {
            name: cursor.name("the constant's name")?,
            typ: cursor.name(TYPE_NAME)?,
            given: given_name(cursor, opened)?,
        }),
        FUNCTION => function(cursor, opened),
        AXIOM => axiom(cursor, opened),
        PATTERN => {
            let name = cursor.name("the pattern's name")?;
            let terms = cursor.row("the pattern's terms in parentheses", term)?;
            cursor.close(opened)?;
            Ok(ItemKind::Pattern { name, terms })
        }
        TERM => {
            let name = cursor.name("the term's name")?;
            let term = term(cursor)?;
            cursor.close(opened)?;
            Ok(ItemKind::Term { name, term })
        }
        NODE => node(cursor, opened),
        GOAL => {
            let name = cursor.name("the goal's name")?;
            let node = cursor.name(ASKED_AT)?;
            let term = term(cursor)?;
            cursor.close(opened)?;
            Ok(ItemKind::Goal { name, node, term })
        }
        _ => refuse(word.at, ITEM, word.quoted()),
    }
}

fn function(cursor: &mut Cursor, opened: Position) -> Result<ItemKind> {
    let name = cursor.name("the function's name")?;
    let inputs = cursor.row("the input types in parentheses", |cursor| {
        cursor.name(TYPE_NAME)
    })?;
    let typ = cursor.name(TYPE_NAME)?;
    let (mut given, mut explained_by) = (None, Vec::new());
    let mut keys = vec![NAME_KEY, EXPLAINED_BY_KEY];
    while let Some(key) = cursor.attribute(opened, &mut keys)? {
        if key == NAME_KEY {
            given = Some(name_in_string(cursor)?);
        } else {
            explained_by = names(cursor, "an axiom's name")?;
        }
    }
    Ok(ItemKind::Function {
        name,
        inputs,
        typ,
        given,
        explained_by,
    })
}

/// An axiom may have no term.
fn axiom(cursor: &mut Cursor, opened: Position) -> Result<ItemKind> {
    let name = cursor.name("the axiom's name")?;
    let has_none = matches!(cursor.token(), Token::Close | Token::Keyword(_));
    let term = if has_none { None } else { Some(term(cursor)?) };
    let mut explains = Vec::new();
    let mut keys = vec![EXPLAINS_KEY];
    while cursor.attribute(opened, &mut keys)?.is_some() {
        explains = names(cursor, "a function's name")?;
    }
    Ok(ItemKind::Axiom {
        name,
        term,
        explains,
    })
}

fn node(cursor: &mut Cursor, opened: Position) -> Result<ItemKind> {
    let name = cursor.name("the node's name")?;
    let parent = cursor.name(PARENT)?;
    let term = term(cursor)?;
    let mut trace = None;
    let mut keys = vec![TRACE_KEY];
    while cursor.attribute(opened, &mut keys)?.is_some() {
        trace = Some(cursor.string("the trace as a string")?);
    }
    Ok(ItemKind::Node {
        name,
        parent,
        term,
        trace,
    })
}

/// The item's end, with `:name` before it or not.
fn given_name(cursor: &mut Cursor, opened: Position) -> Result<Option<Name>> {
    let mut given = None;
    let mut keys = vec![NAME_KEY];
    while cursor.attribute(opened, &mut keys)?.is_some() {
        given = Some(name_in_string(cursor)?);
    }
    Ok(given)
}

fn name_in_string(cursor: &mut Cursor) -> Result<Name> {
    let at = cursor.at();
    let text = cursor.string("the name as a string")?;
    Ok(Name { at, text })
}

fn names(cursor: &mut Cursor, each: &str) -> Result<Vec<Name>> {
    cursor.row("names in parentheses", |cursor| cursor.name(each))
}

fn list_entry(cursor: &mut Cursor) -> Result<u32> {
    let number = match cursor.token() {
        Token::Integer(x) => u32::try_from(*x).ok(),
        _ => None,
    };
    let Some(number) = number else {
        return cursor.unexpected(format!("a number from 0 to {}", u32::MAX));
    };
    cursor.advance()?;
    Ok(number)
}
