//! The book's format: sections, sizes, limits and readers of the bytes.

/// Bytes of the table of contents: an offset and a count for each section.
pub const CONTENTS_SIZE: usize = 80;
/// Bytes of a number.
pub const NUMBER_SIZE: usize = 4;
/// An axiom's term field when it has no term.
pub const NO_TERM: u32 = 0xFFFF_FFFF;
/// Type numbers: two built in, then the user types.
pub const BOOL: u32 = 0;
pub const INT: u32 = 1;
pub const FIRST_USER_TYPE: u32 = 2;

/// The term kinds, as the first number of a term record.
pub mod kind {
    pub const BOOLEAN: u32 = 0;
    pub const INTEGER: u32 = 1;
    pub const CUSTOM_LITERAL: u32 = 2;
    pub const ID: u32 = 3;
    pub const BUILT_IN: u32 = 4;
    pub const FUNCTION: u32 = 5;
    pub const IF_THEN_ELSE: u32 = 6;
    pub const LET: u32 = 7;
    pub const QUANTIFIER: u32 = 8;
}

/// Numbers in a record of each section that holds records of numbers.
pub const NAME_FIELDS: usize = 2;
pub const TYPE_FIELDS: usize = 1;
pub const CONSTANT_FIELDS: usize = 2;
pub const FUNCTION_FIELDS: usize = 6;
pub const AXIOM_FIELDS: usize = 3;
pub const PATTERN_FIELDS: usize = 2;
pub const TERM_FIELDS: usize = 7;
pub const CONTEXT_FIELDS: usize = 3;
pub const LIST_FIELDS: usize = 1;

/// The sections, in the order of the table of contents.
#[derive(Clone, Copy, Debug, PartialEq, Eq)]
pub enum Section {
    Letters,
    Names,
    Types,
    Constants,
    Functions,
    Axioms,
    Patterns,
    Terms,
    Contexts,
    Lists,
}

impl Section {
    pub const ALL: [Section; 10] = [
        Section::Letters,
        Section::Names,
        Section::Types,
        Section::Constants,
        Section::Functions,
        Section::Axioms,
        Section::Patterns,
        Section::Terms,
        Section::Contexts,
        Section::Lists,
    ];

    /// Bytes of one record.
    pub const fn record_size(self) -> usize {
        match self {
            Section::Letters => 1,
            Section::Names => NAME_FIELDS * NUMBER_SIZE,
            Section::Types => TYPE_FIELDS * NUMBER_SIZE,
            Section::Constants => CONSTANT_FIELDS * NUMBER_SIZE,
            Section::Functions => FUNCTION_FIELDS * NUMBER_SIZE,
            Section::Axioms => AXIOM_FIELDS * NUMBER_SIZE,
            Section::Patterns => PATTERN_FIELDS * NUMBER_SIZE,
            Section::Terms => TERM_FIELDS * NUMBER_SIZE,
            Section::Contexts => CONTEXT_FIELDS * NUMBER_SIZE,
            Section::Lists => LIST_FIELDS * NUMBER_SIZE,
        }
    }

    /// The largest count that passes.
    pub const fn most(self) -> usize {
        match self {
            Section::Letters => 8_192,
            Section::Names => 512,
            Section::Types => 64,
            Section::Constants => 256,
            Section::Functions => 128,
            Section::Axioms => 128,
            Section::Patterns => 128,
            Section::Terms => 1_024,
            Section::Contexts => 512,
            Section::Lists => 2_048,
        }
    }
}

/// A start and a count, as records hold them.
#[derive(Clone, Copy, Debug)]
pub struct Range {
    pub start: u32,
    pub count: u32,
}

impl Range {
    pub const fn new(start: u32, count: u32) -> Range {
        Range { start, count }
    }

    /// Start plus count is at most `size`, in exact arithmetic.
    pub fn fits(self, size: u32) -> bool {
        u64::from(self.start) + u64::from(self.count) <= u64::from(size)
    }

    fn numbers(self) -> std::ops::Range<usize> {
        let start = self.start as usize;
        start..start + self.count as usize
    }
}

/// The number in the four bytes at `at`.
pub fn number_at(bytes: &[u8], at: usize) -> u32 {
    let mut number = [0; NUMBER_SIZE];
    number.copy_from_slice(&bytes[at..at + NUMBER_SIZE]);
    u32::from_le_bytes(number)
}

/// A book of at least `CONTENTS_SIZE` bytes. Records may be read once its
/// table of contents has passed, ranges once they were found to fit.
#[derive(Clone, Copy)]
pub struct Book<'b> {
    bytes: &'b [u8],
}

impl<'b> Book<'b> {
    /// None for bytes that can't hold a table of contents.
    pub fn new(bytes: &'b [u8]) -> Option<Book<'b>> {
        (bytes.len() >= CONTENTS_SIZE).then_some(Book { bytes })
    }

    pub fn size(&self) -> usize {
        self.bytes.len()
    }

    pub fn offset(&self, section: Section) -> u32 {
        number_at(self.bytes, contents_place(section))
    }

    pub fn count(&self, section: Section) -> u32 {
        number_at(self.bytes, contents_place(section) + NUMBER_SIZE)
    }

    /// The numbers of one record.
    pub fn record<const N: usize>(&self, section: Section, record: usize) -> [u32; N] {
        let at = self.offset(section) as usize + record * section.record_size();
        std::array::from_fn(|field| number_at(self.bytes, at + field * NUMBER_SIZE))
    }

    /// The numbers of all records of a section.
    pub fn records<const N: usize>(
        self,
        section: Section,
    ) -> impl Iterator<Item = [u32; N]> + use<'b, N> {
        (0..self.count(section) as usize).map(move |record| self.record(section, record))
    }

    pub fn letters(&self) -> &'b [u8] {
        let start = self.offset(Section::Letters) as usize;
        &self.bytes[start..start + self.count(Section::Letters) as usize]
    }

    /// The text of a name.
    pub fn name(&self, name: u32) -> &'b [u8] {
        let [start, length] = self.record(Section::Names, name as usize);
        &self.letters()[Range::new(start, length).numbers()]
    }

    /// The list entries that a range covers.
    pub fn entries(self, range: Range) -> impl Iterator<Item = u32> + use<'b> {
        range.numbers().map(move |entry| {
            let [number] = self.record(Section::Lists, entry);
            number
        })
    }
}

/// Where a section's pair stands in the table of contents.
pub fn contents_place(section: Section) -> usize {
    section as usize * 2 * NUMBER_SIZE
}
