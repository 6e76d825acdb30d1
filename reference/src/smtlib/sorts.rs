//! The sorts of SMT-LIB 2.6, section 3.5: a name, or a name and its sorts in
//! parentheses.

use crate::smtlib::cursor::Cursor;
use crate::smtlib::declared::Declared;
use crate::smtlib::lexer::Token;
use crate::smtlib::refused::{refuse, shown, Result};

const A_SORT: &str = "a sort";

pub fn sort(cursor: &mut Cursor, declared: &Declared) -> Result<()> {
    let at = cursor.at();
    let (name, given) = if cursor.peek() == Some(Token::Open) {
        cursor.advance();
        let name = cursor.symbol(A_SORT)?;
        (name, cursor.row(|cursor| sort(cursor, declared))?)
    } else {
        (cursor.symbol(A_SORT)?, 0)
    };
    match declared.sort(name) {
        _ if !declared.resolves => Ok(()),
        None => refuse(at, format!("the sort {} is not declared", shown(name))),
        Some(takes) if takes != given => {
            let name = shown(name);
            refuse(at, format!("{given} sorts for {name}, which takes {takes}"))
        }
        Some(_) => Ok(()),
    }
}
