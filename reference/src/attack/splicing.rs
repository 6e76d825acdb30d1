//! What a solver that lies, stammers and breaks off makes of a real solver's
//! answers. It never writes what no host could tell from an honest answer.

use crate::attack::recorded::{RECORDED, UNSAT};
use crate::random::{Random, AT_TIMES, OFTEN};

/// How often an answer is touched, of a solver that is not honest.
const TOUCHED: usize = 5;
/// A mark that nobody waits for is touched less often, or no question would
/// ever be asked.
const FENCE_TOUCHED: usize = 12;
const MOST_FLIPS: usize = 3;
const BITS: usize = 8;

/// What a real solver wrote up to an echoed mark.
pub struct Chunk {
    pub text: Vec<u8>,
    pub mark: Vec<u8>,
    /// Whether the solver was asked to check since the mark before.
    pub is_check: bool,
    /// Whether it was asked for anything.
    pub is_answer: bool,
}

/// What is written instead of a chunk.
#[derive(Debug, PartialEq, Eq)]
pub struct Written {
    pub bytes: Vec<u8>,
    /// The mark is not among the bytes: nobody will ask for more.
    pub is_last: bool,
    /// How the chunk was changed.
    pub way: Option<Way>,
    /// It would have been a lie that no host can find out, and was left alone.
    pub is_spared: bool,
}

#[derive(Clone, Copy, Debug, PartialEq, Eq)]
pub enum Way {
    TextDropped,
    TextDoubled,
    TextCut,
    TextReplaced,
    PieceInside,
    PieceBefore,
    PieceBehindMark,
    HeldBack,
    MarkDropped,
    MarkDoubled,
    MarkFirst,
    OtherMark,
    BytesFlipped,
    BrokenOff,
}

pub const WAYS: [Way; 14] = [
    Way::TextDropped,
    Way::TextDoubled,
    Way::TextCut,
    Way::TextReplaced,
    Way::PieceInside,
    Way::PieceBefore,
    Way::PieceBehindMark,
    Way::HeldBack,
    Way::MarkDropped,
    Way::MarkDoubled,
    Way::MarkFirst,
    Way::OtherMark,
    Way::BytesFlipped,
    Way::BrokenOff,
];
/// Where nothing was asked there is no text to spoil.
const WAYS_AT_FENCE: [Way; 7] = [
    Way::PieceBefore,
    Way::PieceBehindMark,
    Way::MarkDropped,
    Way::MarkDoubled,
    Way::OtherMark,
    Way::BytesFlipped,
    Way::BrokenOff,
];
/// How a solver keeps its answer to itself that has written another one
/// before it was asked.
const SILENT: [Way; 2] = [Way::TextDropped, Way::HeldBack];

pub struct Splicer {
    random: Random,
    is_honest: bool,
    /// The texts and marks so far.
    earlier: Vec<Vec<u8>>,
    marks: Vec<Vec<u8>>,
    /// What is held back for the next chunk.
    held: Vec<u8>,
    /// Whether something stands behind the last mark, where nothing was asked
    /// yet.
    is_ahead: bool,
}

/// A chunk on its way: what goes before the mark, the mark's line, and what
/// goes behind it.
struct Parts {
    before: Vec<u8>,
    mark: Vec<u8>,
    behind: Vec<u8>,
}

impl Parts {
    fn bytes(&self) -> Vec<u8> {
        [&self.before[..], &self.mark, &self.behind].concat()
    }
}

impl Splicer {
    pub fn new(seed: u64) -> Splicer {
        let mut random = Random::new(seed);
        let is_honest = random.one_in(AT_TIMES);
        Splicer {
            random,
            is_honest,
            earlier: Vec::new(),
            marks: Vec::new(),
            held: Vec::new(),
            is_ahead: false,
        }
    }

    /// What is written for a chunk.
    pub fn write(&mut self, chunk: &Chunk) -> Written {
        let honest = [&chunk.text[..], &line(&chunk.mark)].concat();
        let way = self.way(chunk);
        let mut bytes = self.changed(chunk, way);
        let is_spared = self.is_perfect_lie(chunk, &bytes);
        if is_spared {
            bytes = honest;
        }
        self.earlier.push(chunk.text.clone());
        self.marks.push(line(&chunk.mark));
        let behind = around(&bytes, &chunk.mark).map(|(_, behind)| behind);
        self.is_ahead = behind.is_some_and(|behind| !behind.trim_ascii().is_empty());
        Written {
            is_last: behind.is_none(),
            bytes,
            way,
            is_spared,
        }
    }

    fn way(&mut self, chunk: &Chunk) -> Option<Way> {
        if self.is_honest {
            return None;
        }
        if self.is_ahead && chunk.is_answer && self.random.one_in(OFTEN) {
            return Some(self.random.pick(&SILENT));
        }
        let (chance, ways) = if chunk.is_answer {
            (TOUCHED, &WAYS[..])
        } else {
            (FENCE_TOUCHED, &WAYS_AT_FENCE[..])
        };
        let is_touched = self.random.one_in(chance);
        is_touched.then(|| self.random.pick(ways))
    }

    /// The chunk with what was held back, changed in a way.
    fn changed(&mut self, chunk: &Chunk, way: Option<Way>) -> Vec<u8> {
        let mut parts = Parts {
            before: chunk.text.clone(),
            mark: line(&chunk.mark),
            behind: Vec::new(),
        };
        let held = std::mem::take(&mut self.held);
        if self.random.one_in(OFTEN) {
            parts.behind = held;
        } else {
            parts.before.splice(0..0, held);
        }
        if let Some(way) = way {
            self.change(&mut parts, way);
        }
        let mut bytes = parts.bytes();
        match way {
            Some(Way::BytesFlipped) => self.flip(&mut bytes),
            Some(Way::BrokenOff) => bytes.truncate(self.random.below(bytes.len())),
            _ => {}
        }
        bytes
    }

    fn change(&mut self, parts: &mut Parts, way: Way) {
        match way {
            Way::TextDropped => parts.before.clear(),
            Way::TextDoubled => parts.before.extend_from_within(..),
            Way::TextCut => self.cut(&mut parts.before),
            Way::TextReplaced => parts.before = self.piece(),
            Way::PieceInside => {
                let place = self.random.up_to(parts.before.len());
                let piece = self.piece();
                parts.before.splice(place..place, piece);
            }
            Way::PieceBefore => {
                let piece = self.piece();
                parts.before.splice(0..0, piece);
            }
            Way::PieceBehindMark => parts.behind.extend(self.piece()),
            Way::HeldBack => self.held = std::mem::take(&mut parts.before),
            Way::MarkDropped => parts.mark.clear(),
            Way::MarkDoubled => parts.mark.extend_from_within(..),
            Way::MarkFirst => {
                let before = std::mem::take(&mut parts.before);
                parts.behind.splice(0..0, before);
            }
            Way::OtherMark => self.add_other_mark(parts),
            Way::BytesFlipped | Way::BrokenOff => {}
        }
    }

    /// The begin or the end of a text is left.
    fn cut(&mut self, text: &mut Vec<u8>) {
        let place = self.random.up_to(text.len());
        if self.random.one_in(OFTEN) {
            text.truncate(place);
        } else {
            text.drain(..place);
        }
    }

    /// An earlier mark, before the text or behind it, with an answer at times.
    fn add_other_mark(&mut self, parts: &mut Parts) {
        let mut other = match self.marks.len() {
            0 => parts.mark.clone(),
            count => self.marks[self.random.below(count)].clone(),
        };
        if self.random.one_in(OFTEN) {
            other.extend(self.piece());
        }
        let place = if self.random.one_in(OFTEN) {
            0
        } else {
            parts.before.len()
        };
        parts.before.splice(place..place, other);
    }

    fn flip(&mut self, bytes: &mut [u8]) {
        for _ in 0..=self.random.below(MOST_FLIPS) {
            let place = self.random.below(bytes.len());
            bytes[place] ^= 1 << self.random.below(BITS);
        }
    }

    /// An answer to something else, whole.
    fn piece(&mut self) -> Vec<u8> {
        if self.random.one_in(OFTEN) {
            return UNSAT.to_vec();
        }
        match self.earlier.len() {
            count if count > 0 && self.random.one_in(OFTEN) => {
                self.earlier[self.random.below(count)].clone()
            }
            _ => self.random.pick(&RECORDED).to_vec(),
        }
    }

    /// Whether exactly the word `unsat` would come between a question and its
    /// mark although the real solver said otherwise, with nothing written
    /// before the question. A solver that answers so is taken at its word.
    fn is_perfect_lie(&self, chunk: &Chunk, bytes: &[u8]) -> bool {
        let says_unsat = around(bytes, &chunk.mark).is_some_and(|(before, _)| is_unsat(before));
        chunk.is_check && !self.is_ahead && says_unsat && !is_unsat(&chunk.text)
    }
}

fn line(mark: &[u8]) -> Vec<u8> {
    [mark, b"\n"].concat()
}

/// What stands before and behind the first such mark.
fn around<'b>(bytes: &'b [u8], mark: &[u8]) -> Option<(&'b [u8], &'b [u8])> {
    let place = bytes.windows(mark.len()).position(|part| part == mark)?;
    Some((&bytes[..place], &bytes[place + mark.len()..]))
}

/// Blanks, line ends and comments aside, and the quote that a mark may stand
/// in.
fn is_unsat(text: &[u8]) -> bool {
    let lines = text.split(|byte| *byte == b'\n');
    let code = lines.map(|line| line.split(|byte| *byte == b';').next().unwrap_or(line));
    let words: Vec<u8> = code.collect::<Vec<_>>().join(&b'\n');
    let words = words.trim_ascii();
    words.strip_suffix(b"\"").unwrap_or(words).trim_ascii() == UNSAT.trim_ascii()
}
