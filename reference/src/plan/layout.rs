//! Text from pieces: on one line where it fits, else part below part.

/// The columns that a line may fill, closing parentheses not counted.
const WIDTH: usize = 100;
const INDENT: usize = 2;

pub enum Piece {
    Word(String),
    /// A keyword and its value.
    Attribute(&'static str, Box<Piece>),
    /// Parentheses; the first `kept` parts stay on the first line.
    Row {
        kept: usize,
        parts: Vec<Piece>,
    },
}

impl Piece {
    pub fn word(text: impl Into<String>) -> Piece {
        Piece::Word(text.into())
    }

    pub fn attribute(key: &'static str, value: Piece) -> Piece {
        Piece::Attribute(key, Box::new(value))
    }

    pub fn row(parts: Vec<Piece>) -> Piece {
        Piece::Row { kept: 1, parts }
    }

    pub fn row_keeping(kept: usize, parts: Vec<Piece>) -> Piece {
        Piece::Row { kept, parts }
    }

    /// A row of words.
    pub fn words<'w>(words: impl IntoIterator<Item = &'w str>) -> Piece {
        Piece::row(words.into_iter().map(Piece::word).collect())
    }

    /// Writes the piece where `out` ends; further lines are indented more
    /// than `indent`.
    pub fn put(&self, indent: usize, out: &mut String) {
        if self.fits_behind(out) {
            return self.put_flat(out);
        }
        match self {
            Piece::Word(text) => out.push_str(text),
            Piece::Attribute(key, value) => {
                out.push_str(key);
                out.push(' ');
                value.put(indent, out);
            }
            Piece::Row { kept, parts } => {
                out.push('(');
                for (place, part) in parts.iter().enumerate() {
                    let before = place.checked_sub(1).map(|before| &parts[before]);
                    match before {
                        None => {}
                        Some(before) if place < *kept || part.follows(before, out) => out.push(' '),
                        Some(_) => {
                            out.push('\n');
                            out.extend(std::iter::repeat_n(' ', indent + INDENT));
                        }
                    }
                    part.put(indent + INDENT, out);
                }
                out.push(')');
            }
        }
    }

    /// A word behind a word fills the line.
    fn follows(&self, before: &Piece, out: &str) -> bool {
        let are_words = matches!((before, self), (Piece::Word(_), Piece::Word(_)));
        are_words && self.fits_behind(out)
    }

    fn fits_behind(&self, out: &str) -> bool {
        let line_start = out.rfind('\n').map_or(0, |line_end| line_end + 1);
        let room = WIDTH.checked_sub(out.len() - line_start);
        room.and_then(|room| self.room_left(room)).is_some()
    }

    /// What the piece on one line leaves of the room; None if it doesn't fit.
    fn room_left(&self, room: usize) -> Option<usize> {
        match self {
            Piece::Word(text) => room.checked_sub(text.len()),
            Piece::Attribute(key, value) => value.room_left(room.checked_sub(key.len() + 1)?),
            Piece::Row { parts, .. } => {
                // The parentheses, and the blanks between parts.
                let around = 2 + parts.len().saturating_sub(1);
                let inside = room.checked_sub(around)?;
                parts
                    .iter()
                    .try_fold(inside, |room, part| part.room_left(room))
            }
        }
    }

    fn put_flat(&self, out: &mut String) {
        match self {
            Piece::Word(text) => out.push_str(text),
            Piece::Attribute(key, value) => {
                out.push_str(key);
                out.push(' ');
                value.put_flat(out);
            }
            Piece::Row { parts, .. } => {
                out.push('(');
                for (place, part) in parts.iter().enumerate() {
                    if place > 0 {
                        out.push(' ');
                    }
                    part.put_flat(out);
                }
                out.push(')');
            }
        }
    }
}
