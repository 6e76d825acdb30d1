//! Lists of session calls on one book, the newest where it grows. What is
//! present and owed is taken from the accepted calls alone, and a reader of
//! their text holds the live levels against what the book alone gives; where
//! the book's names are sane, the strict reader of SMT-LIB reads it too; and
//! where the book prints apart, no live assertion has a stranger. In between
//! come calls on foreign images, damaged books and short scratches, which leave
//! the list alone; and the book may grow.

use crate::calls::{Call, Given, Left, Measure};
use crate::damaged_images::foreign;
use crate::declared_once::DeclaredOnce;
use crate::random_calls::{random_call, room};
use crate::scratch_bytes::{random_scratch, LEAST};
use crate::seen::Seen;
use crate::session_library::{self as library, PROVED, UNPROVED};
use crate::session_shapes::{cyclic, Travelled};
use crate::strict::Strict;
use leskofar_reference::book::Book;
use leskofar_reference::book_test::check;
use leskofar_reference::commands::LINE_END;
use leskofar_reference::damage::damaged;
use leskofar_reference::image::{Kind, Owed, Session, IMAGE_SIZE};
use leskofar_reference::maker::Maker;
use leskofar_reference::program::{Program, ROOT};
use leskofar_reference::random::{Random, AT_TIMES, OFTEN};
use leskofar_reference::refusal::{NO_MODEL_OWED, NO_REPLY_OWED, SESSION, SOMETHING_OWED};
use leskofar_reference::stack::{expected_levels, Level, Reader};
use leskofar_reference::strangers::Breach;
use std::collections::BTreeSet;

pub struct List {
    maker: Maker,
    book: Vec<u8>,
    cyclic: BTreeSet<usize>,
    /// As the library left it.
    image: Vec<u8>,
    reader: Reader,
    /// Where the book's names are sane.
    strict: Option<Strict>,
    declared: DeclaredOnce,
    node: u32,
    goal: Option<u32>,
    owed: Owed,
}

impl List {
    /// A list without calls, on a good book.
    pub fn new(maker: &Maker) -> Result<List, String> {
        let book = maker.book();
        let program = check(&book).map_err(|refusal| format!("refused {refusal}"))?;
        let mut image = vec![0; IMAGE_SIZE];
        library::fresh(&mut image);
        Ok(List {
            maker: maker.clone(),
            cyclic: cyclic(&program),
            image,
            reader: Reader::default(),
            strict: Strict::new(&program),
            declared: DeclaredOnce::new(&program),
            node: ROOT as u32,
            goal: None,
            owed: Owed::Nothing,
            book,
        })
    }

    pub fn image(&self) -> &[u8] {
        &self.image
    }

    /// The records of the newest book, and the book.
    pub fn maker(&self) -> &Maker {
        &self.maker
    }

    pub fn book(&self) -> &[u8] {
        &self.book
    }

    pub fn node(&self) -> u32 {
        self.node
    }

    pub fn goal(&self) -> Option<u32> {
        self.goal
    }

    pub fn owed(&self) -> Owed {
        self.owed
    }

    /// Whether a live command begins so.
    pub fn has_live(&self, start: &[u8]) -> bool {
        let mut live = self.reader.levels().iter().flatten();
        live.any(|command| command.starts_with(start))
    }

    /// Goes on with a grown book, whose functions and axioms are the old ones:
    /// what is live is what the new book gives too.
    pub fn go_on(&mut self, book: &[u8], seen: &mut Seen) -> Result<(), String> {
        self.book = book.to_vec();
        self.maker = Maker::of(Book::new(book).ok_or("no table of contents")?);
        let program = decoded(book)?;
        self.strict = self.strict.take().and_then(|strict| strict.go_on(&program));
        self.declared.go_on(&program);
        self.read(&[])?;
        self.meet_no_stranger(seen)
    }

    /// Whether the newest book prints apart.
    pub fn prints_apart(&self) -> bool {
        self.declared.prints_apart()
    }

    /// What is wrong with the live assertions, whatever the book's names are.
    pub fn breaches(&self) -> Result<Vec<Breach>, String> {
        let program = decoded(&self.book)?;
        Ok(self.declared.look(&program, self.node, self.goal).breaches)
    }

    fn meet_no_stranger(&self, seen: &mut Seen) -> Result<(), String> {
        let program = decoded(&self.book)?;
        let (node, goal) = (self.node, self.goal);
        self.declared.check(&program, node, goal, &mut seen.looked)
    }

    /// A random call, at times after one that is no part of the list.
    pub fn random_step(
        &mut self,
        random: &mut Random,
        other: &[u8],
        measure: &mut Measure,
        seen: &mut Seen,
    ) -> Result<(), String> {
        if random.one_in(AT_TIMES) {
            self.foreign_call(random, other, measure, seen)?;
        }
        let call = random_call(random, &self.maker, self.owed);
        let (text, reason) = measure.lengths(&call, &self.book, &self.image);
        let [text, reason] = [text, reason].map(|length| room(random, length));
        self.step(&call, text, reason, seen).map(|_| ())
    }

    /// A call of the list.
    pub fn step(
        &mut self,
        call: &Call,
        text: usize,
        reason: usize,
        seen: &mut Seen,
    ) -> Result<Left, String> {
        let left = call.compare(&Given {
            book: &self.book,
            image: &self.image,
            scratch: &LEAST,
            text,
            reason,
        })?;
        seen.add(call, &left);
        if left.answer.refusal == SESSION || !self.in_turn(call, &left) {
            let answer = left.answer;
            return Err(format!("{answer:?} on its own image, of {call:?}"));
        }
        self.take(call, &left, seen)
            .map_err(|what| format!("{what} after {call:?}, of {:?}", self.book))?;
        self.image = left.image().to_vec();
        Ok(left)
    }

    /// What an accepted call sent; and what is live, also after a refused one.
    fn take(&mut self, call: &Call, left: &Left, seen: &mut Seen) -> Result<(), String> {
        if left.accepted() {
            self.accept(call, left, seen)?;
        }
        self.meet_no_stranger(seen)
    }

    /// What is owed by the accepted calls decides which call is accepted, and
    /// that 21 to 23 are for the others.
    fn in_turn(&self, call: &Call, left: &Left) -> bool {
        let its_turn = match call {
            Call::Move { .. } | Call::Ask { .. } => Owed::Nothing,
            Call::Reply { .. } => Owed::Reply,
            Call::Model { .. } => Owed::Model,
        };
        let for_its_turn = [SOMETHING_OWED, NO_REPLY_OWED, NO_MODEL_OWED];
        if self.owed == its_turn {
            !for_its_turn.contains(&left.answer.refusal)
        } else {
            !left.accepted()
        }
    }

    fn accept(&mut self, call: &Call, left: &Left, seen: &mut Seen) -> Result<(), String> {
        let from = self.node;
        match call {
            Call::Move { node } => self.node = *node,
            Call::Ask { node, goal } => {
                self.node = *node;
                self.goal = Some(*goal);
                self.owed = Owed::Reply;
            }
            Call::Reply { .. } if ![PROVED, UNPROVED].contains(&left.answer.result) => {
                self.owed = Owed::Model;
            }
            Call::Reply { .. } | Call::Model { .. } => {
                self.goal = None;
                self.owed = Owed::Nothing;
            }
        }
        let levels = self.read(left.text())?;
        seen.levels += 1;
        self.declared.hear(left.text())?;
        let program = decoded(&self.book)?;
        if let Some(strict) = &mut self.strict {
            seen.strict_lines += strict.read(left.text())?;
            if let Call::Ask { goal, .. } = call {
                seen.strict_prints += strict.read_prints(&self.book, &program, *goal)?;
            }
        }
        if let Call::Move { .. } | Call::Ask { .. } = call {
            let travelled = Travelled {
                program: &program,
                cyclic: &self.cyclic,
                from,
                to: self.node,
                goal: self.goal,
                image: left.image(),
                levels: &levels,
            };
            travelled.visit(&mut |shape| seen.shapes.add(shape));
        }
        Ok(())
    }

    /// Reads a text; what is then live is what the book alone gives for the
    /// present node and question, level by level and in its order.
    fn read(&mut self, text: &[u8]) -> Result<Vec<Level>, String> {
        self.reader
            .read(text)
            .map_err(|lost| format!("the reader is lost, {lost:?},"))?;
        let levels = expected_levels(&self.book, self.node, self.goal)
            .ok_or("the book gives no levels for the node and goal")?;
        if self.reader.levels() == levels {
            Ok(levels)
        } else {
            let [live, expected] = [self.reader.levels(), &levels].map(readable);
            Err(format!("live {live}, expected {expected},"))
        }
    }

    /// A call on an image, book or scratch that is not the list's.
    fn foreign_call(
        &self,
        random: &mut Random,
        other: &[u8],
        measure: &mut Measure,
        seen: &mut Seen,
    ) -> Result<(), String> {
        let mut image = self.image.clone();
        if random.one_in(OFTEN) {
            let (manner, changed) = foreign(random, Kind::Wide, &self.image, other);
            seen.images.add(manner);
            image = changed;
        }
        let mut book = self.book.clone();
        if random.one_in(OFTEN) {
            book = damaged(random, &self.maker);
        }
        let session = Session::read(Kind::Wide, &image);
        let owed = session.map_or(Owed::Nothing, |session| session.owed);
        let call = random_call(random, &self.maker, owed);
        let (text, reason) = measure.lengths(&call, &book, &image);
        let [text, reason] = [text, reason].map(|length| room(random, length));
        let left = call.compare(&Given {
            book: &book,
            image: &image,
            scratch: &random_scratch(random),
            text,
            reason,
        })?;
        seen.add(&call, &left);
        Ok(())
    }
}

/// Runs a list of calls on a book.
pub fn on_book<T>(
    m: &Maker,
    run: impl FnOnce(&mut List) -> Result<T, String>,
) -> Result<T, String> {
    run(&mut List::new(m)?)
}

/// What a good book holds.
fn decoded(book: &[u8]) -> Result<Program<'_>, String> {
    let book = Book::new(book).ok_or("no table of contents")?;
    Ok(Program::decode(book))
}

/// Levels as their texts, which are ASCII.
fn readable(levels: &[Level]) -> String {
    let texts = levels.iter().map(|level| level.join(&LINE_END));
    let texts: Vec<String> = texts
        .map(|text| String::from_utf8_lossy(&text).into_owned())
        .collect();
    format!("{texts:?}")
}
