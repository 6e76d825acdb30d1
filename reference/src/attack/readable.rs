//! A plan's text as words and parentheses.

/// What stands in parentheses, or a token of its own.
#[derive(Clone, Debug, PartialEq, Eq)]
pub enum Piece {
    List(Vec<Piece>),
    Integer(i128),
    /// A name, without the bars if it had any.
    Name(String),
    /// A keyword with its colon.
    Keyword(String),
    Text(String),
}

const SIGNS: &[u8] = b"~!@$%^&*_-+=<>.?/";

pub fn is_word_byte(byte: u8) -> bool {
    byte.is_ascii_alphanumeric() || SIGNS.contains(&byte)
}

/// Digits, or a minus and digits.
pub fn is_integer(word: &str) -> bool {
    let digits = word.strip_prefix('-').unwrap_or(word);
    !digits.is_empty() && digits.bytes().all(|byte| byte.is_ascii_digit())
}

/// A symbol of SMT-LIB that needs no bars.
pub fn is_simple(word: &str) -> bool {
    let begins_well = word
        .bytes()
        .next()
        .is_some_and(|byte| !byte.is_ascii_digit());
    begins_well && word.bytes().all(is_word_byte)
}

/// The tokens as they are written, with their bars and quotes; nothing if the
/// text has something else too.
pub fn tokens(text: &str) -> Option<Vec<String>> {
    let mut tokens = Vec::new();
    let mut rest = text;
    loop {
        rest = rest.trim_start_matches([' ', '\t', '\r', '\n']);
        let length = match rest.bytes().next() {
            None => return Some(tokens),
            Some(b';') => {
                rest = rest.find('\n').map_or("", |end| &rest[end..]);
                continue;
            }
            Some(b'(' | b')') => 1,
            Some(b'"') => text_length(rest)?,
            Some(b'|') => 2 + rest[1..].find('|')?,
            Some(b':') => 1 + word_length(&rest[1..])?,
            Some(_) => word_length(rest)?,
        };
        let token = &rest[..length];
        if !token.bytes().all(|byte| (b' '..=b'~').contains(&byte)) {
            return None;
        }
        tokens.push(token.into());
        rest = &rest[length..];
    }
}

fn word_length(text: &str) -> Option<usize> {
    let length = text.bytes().take_while(|byte| is_word_byte(*byte)).count();
    (length > 0).then_some(length)
}

/// Of a text in quotes, in which two stand for one.
fn text_length(text: &str) -> Option<usize> {
    let mut length = 1;
    loop {
        length += text[length..].find('"')? + 1;
        if !text[length..].starts_with('"') {
            return Some(length);
        }
        length += 1;
    }
}

/// The items of a text; nothing if its parentheses or words are bad.
pub fn pieces(text: &str) -> Option<Vec<Piece>> {
    let mut open: Vec<Vec<Piece>> = vec![Vec::new()];
    for token in tokens(text)? {
        match token.as_str() {
            "(" => open.push(Vec::new()),
            ")" => {
                let list = open.pop()?;
                open.last_mut()?.push(Piece::List(list));
            }
            token => open.last_mut()?.push(single(token)?),
        }
    }
    let items = open.pop()?;
    open.is_empty().then_some(items)
}

fn single(token: &str) -> Option<Piece> {
    if let Some(text) = token.strip_prefix('"') {
        let text = text.strip_suffix('"')?;
        return Some(Piece::Text(text.replace("\"\"", "\"")));
    }
    if let Some(name) = token.strip_prefix('|') {
        let name = name.strip_suffix('|')?;
        return (!name.contains('\\')).then(|| Piece::Name(name.into()));
    }
    if token.starts_with(':') {
        return Some(Piece::Keyword(token.into()));
    }
    if is_integer(token) {
        return token.parse::<i64>().ok().map(|x| Piece::Integer(x.into()));
    }
    is_simple(token).then(|| Piece::Name(token.into()))
}
