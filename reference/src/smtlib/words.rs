//! The words of SMT-LIB 2.6 and the letters of its symbols.

/// The reserved words, the names of the commands among them. Between bars they
/// are symbols, but z3 takes some for its own even there.
pub const RESERVED: [&str; 43] = [
    "!",
    "_",
    "as",
    "BINARY",
    "DECIMAL",
    "exists",
    "HEXADECIMAL",
    "forall",
    "let",
    "match",
    "NUMERAL",
    "par",
    "STRING",
    "assert",
    "check-sat",
    "check-sat-assuming",
    "declare-const",
    "declare-datatype",
    "declare-datatypes",
    "declare-fun",
    "declare-sort",
    "define-fun",
    "define-fun-rec",
    "define-funs-rec",
    "define-sort",
    "echo",
    "exit",
    "get-assertions",
    "get-assignment",
    "get-info",
    "get-model",
    "get-option",
    "get-proof",
    "get-unsat-assumptions",
    "get-unsat-core",
    "get-value",
    "pop",
    "push",
    "reset",
    "reset-assertions",
    "set-info",
    "set-logic",
    "set-option",
];
/// A simple symbol that begins so is for solvers to declare.
const FOR_SOLVERS: [u8; 2] = [b'@', b'.'];
/// What a simple symbol may hold besides letters and digits.
const SYMBOL_SIGNS: &[u8] = b"~!@$%^&*_-+=<>.?/";

pub fn is_reserved(word: &[u8]) -> bool {
    RESERVED.iter().any(|reserved| reserved.as_bytes() == word)
}

pub fn is_symbol_byte(byte: u8) -> bool {
    byte.is_ascii_alphanumeric() || SYMBOL_SIGNS.contains(&byte)
}

/// A symbol that may stand without bars, if it is not reserved.
pub fn is_simple_symbol(name: &[u8]) -> bool {
    let begins = name.first().is_some_and(|first| !first.is_ascii_digit());
    begins && name.iter().copied().all(is_symbol_byte)
}

/// Of a symbol without its bars.
pub fn is_for_solvers(symbol: &[u8]) -> bool {
    let begins = symbol.first();
    is_simple_symbol(symbol) && begins.is_some_and(|first| FOR_SOLVERS.contains(first))
}
