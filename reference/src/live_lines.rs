//! A reader of a session's text that keeps the live lines: the number of each
//! in the text, its level, and what it declares or that it asserts. It shares
//! nothing with the reader of the stack rule, with which it is to agree.

const LINE_END: u8 = b'\n';
const BAR: u8 = b'|';
const BLANK: u8 = b' ';

/// What a live line does. Names are without the bars around them.
#[derive(Clone, Debug, PartialEq, Eq)]
pub enum Command {
    DeclareSort(Vec<u8>),
    DeclareFun(Vec<u8>),
    Assert,
}

#[derive(Clone, Debug, PartialEq, Eq)]
pub struct Line {
    /// In the whole text, from 1 on.
    pub number: usize,
    /// How many pushes it stands behind that are not popped.
    pub level: usize,
    pub command: Command,
    pub text: Vec<u8>,
}

/// A line that no session sends, by its number.
#[derive(Clone, Copy, Debug, PartialEq, Eq)]
pub enum Unheard {
    NoLineEnd(usize),
    NothingToPop(usize),
    NoCommand(usize),
}

#[derive(Clone, Debug, Default)]
pub struct LiveLines {
    heard: usize,
    level: usize,
    lines: Vec<Line>,
}

impl LiveLines {
    /// In the order in which they were heard.
    pub fn lines(&self) -> &[Line] {
        &self.lines
    }

    /// How many levels are live, the first among them.
    pub fn levels(&self) -> usize {
        self.level + 1
    }

    pub fn at(&self, level: usize) -> impl DoubleEndedIterator<Item = &Line> {
        self.lines.iter().filter(move |line| line.level == level)
    }

    /// Goes on with a text, each of whose lines is ended.
    pub fn hear(&mut self, text: &[u8]) -> Result<(), Unheard> {
        for line in text.split_inclusive(|byte| *byte == LINE_END) {
            self.heard += 1;
            let line = line.strip_suffix(&[LINE_END]);
            self.hear_line(line.ok_or(Unheard::NoLineEnd(self.heard))?)?;
        }
        Ok(())
    }

    fn hear_line(&mut self, line: &[u8]) -> Result<(), Unheard> {
        match line {
            b"(push 1)" => self.level += 1,
            b"(pop 1)" => {
                let below = self.level.checked_sub(1);
                self.level = below.ok_or(Unheard::NothingToPop(self.heard))?;
                self.lines.retain(|line| line.level <= self.level);
            }
            b"(check-sat)" | b"(get-model)" => {}
            _ => self.lines.push(Line {
                number: self.heard,
                level: self.level,
                command: command(line).ok_or(Unheard::NoCommand(self.heard))?,
                text: line.to_vec(),
            }),
        }
        Ok(())
    }
}

fn command(line: &[u8]) -> Option<Command> {
    if let Some(sort) = line.strip_prefix(b"(declare-sort ") {
        let (name, rest) = name(sort)?;
        return (rest == b" 0)").then(|| Command::DeclareSort(name.to_vec()));
    }
    if let Some(function) = line.strip_prefix(b"(declare-fun ") {
        let (name, rest) = name(function)?;
        let has_signature = rest.starts_with(b" (") && rest.ends_with(b")");
        return has_signature.then(|| Command::DeclareFun(name.to_vec()));
    }
    let is_assertion = line.starts_with(b"(assert ") && line.ends_with(b")");
    is_assertion.then_some(Command::Assert)
}

/// The name that a text begins with, without its bars, and what follows it.
/// Between bars it may hold blanks, colons and parentheses.
fn name(text: &[u8]) -> Option<(&[u8], &[u8])> {
    let find = |text: &[u8], end: u8| text.iter().position(|byte| *byte == end);
    match text.strip_prefix(&[BAR]) {
        Some(inside) => {
            let end = find(inside, BAR)?;
            Some((&inside[..end], &inside[end + 1..]))
        }
        None => Some(text.split_at(find(text, BLANK)?)),
    }
}
