//! A call of print, made on the library and on the reference.

use crate::library;
use crate::printed::{compare, left, rooms_around, told, Left};
use crate::scratch_bytes::LEAST;
use crate::strict_prints::Prints;
use crate::tally::Met;
use leskofar_reference::book_test::check;
use leskofar_reference::lower::to_sexpr;
use leskofar_reference::maker::Maker;
use leskofar_reference::program::Program;
use leskofar_reference::sexpr::SExprPrintConfig;
use leskofar_reference::sink::Sink;

pub const INDENTS: [u64; 5] = [0, 1, 7, 1 << 32, u64::MAX];
pub const TAGS: [u64; 5] = [0, 7, 1 << 32, 1 << 63, u64::MAX];
/// Flags for a line for each part.
pub const FLAGS: [u32; 5] = [1, 7, 256, 1 << 31, u32::MAX];
pub const ONE_LINE: u32 = 0;

/// A call of print but for its buffers.
#[derive(Clone, Copy, Debug)]
pub struct Print<'b> {
    pub book: &'b [u8],
    pub term: u32,
    pub tag: u64,
    pub newlines: u32,
    pub indent: u64,
}

impl Print<'_> {
    /// Gives what the library left.
    pub fn compare(self, room: usize, scratch: &[u8], met: &mut Met) -> Result<Left, String> {
        let Print {
            book,
            term,
            tag,
            newlines,
            indent,
        } = self;
        let theirs = left(room, scratch, |scratch, text| {
            let newlines = newlines != 0;
            told(leskofar_reference::print(
                book, scratch, term, tag, newlines, indent, text,
            ))
        });
        let ours = left(room, scratch, |scratch, text| {
            library::print(book, scratch, term, tag, newlines, indent, text)
        });
        compare(met, theirs, ours, scratch, || {
            format!("buffer {room}, {self:?}")
        })
    }

    /// The length of the text, as the reference measures it.
    pub fn length(self, program: &Program) -> u64 {
        let config = SExprPrintConfig {
            newlines: self.newlines != 0,
            indent: self.indent,
        };
        let mut sink = Sink::new(0);
        to_sexpr(program, self.term as usize, self.tag).print(config, &mut sink);
        sink.length()
    }

    /// With buffers exactly long enough, one byte less, empty and longer. A
    /// text that fills its buffer is read strictly.
    pub fn compare_around(
        self,
        length: u64,
        longer: usize,
        met: &mut Met,
        prints: &mut Prints,
    ) -> Result<(), String> {
        for room in rooms_around(length, longer) {
            let left = self.compare(room, &LEAST, met)?;
            if room > 0 && left.text().len() == room {
                prints.read(left.text())?;
            }
        }
        Ok(())
    }
}

/// Every term of a book, in every layout. Gives how many prints were read
/// strictly.
pub fn compare_terms(book: &[u8], met: &mut Met) -> Result<usize, String> {
    let program = check(book).map_err(|refusal| format!("refused {refusal}"))?;
    let mut prints = Prints::new(book, &program)?;
    for term in 0..program.terms.len() as u32 {
        for tag in TAGS {
            for indent in INDENTS {
                for newlines in [ONE_LINE, FLAGS[0]] {
                    let call = Print {
                        book,
                        term,
                        tag,
                        newlines,
                        indent,
                    };
                    let length = call.length(&program);
                    call.compare_around(length, 0, met, &mut prints)?;
                }
            }
        }
    }
    Ok(prints.read)
}

/// The last term of a book, in every layout; gives the same.
pub fn compare_last(m: &Maker, met: &mut Met) -> Result<usize, String> {
    let book = &m.book();
    let program = check(book).map_err(|refusal| format!("refused {refusal}"))?;
    let mut prints = Prints::new(book, &program)?;
    for indent in INDENTS {
        for newlines in [ONE_LINE, FLAGS[0]] {
            let call = Print {
                book,
                term: program.terms.len() as u32 - 1,
                tag: 0,
                newlines,
                indent,
            };
            call.compare_around(call.length(&program), 0, met, &mut prints)?;
        }
    }
    Ok(prints.read)
}
