//! The book test: refusals 1 to 6 and 28, each decided for the whole book before
//! the next.

use crate::book::{
    kind, Book, Range, Section, CONTENTS_SIZE, FIRST_USER_TYPE, NO_TERM, TERM_FIELDS,
};
use crate::lower::TAG;
use crate::program::{Program, RExpr};
use crate::refusal::{refuse_if, BAD_NAME, CONTENTS, COUNT, DEPTH, FIELD, FOREST, SCRATCH_SHORT};
use crate::symbols::{has_bar, is_name};

/// The least scratch that a call takes.
pub const SCRATCH_SIZE: usize = 128;
/// The depth of the deepest node that passes.
pub const MOST_DEPTH: usize = 400;
/// The letters that pass.
pub const FIRST_LETTER: u8 = 0x20;
pub const LAST_LETTER: u8 = 0x7E;

/// The public call: refusals 1 to 6 and 28. The scratch is zero whole afterwards,
/// untouched under 1.
pub fn book_test(book: &[u8], scratch: &mut [u8]) -> Result<(), u32> {
    open(book, scratch).map(|_| ())
}

/// What every call on a book begins with: refusals 1 to 6 and 28, the zero scratch,
/// and the program that the book holds.
pub fn open<'b>(book: &'b [u8], scratch: &mut [u8]) -> Result<Program<'b>, u32> {
    refuse_if(scratch.len() < SCRATCH_SIZE, SCRATCH_SHORT)?;
    scratch.fill(0);
    check(book)
}

/// Refusals 2 to 6 and 28, and the program of a book that passes.
pub fn check(bytes: &[u8]) -> Result<Program<'_>, u32> {
    let program = check_but_names(bytes)?;
    refuse_if(!names_pass(&program), BAD_NAME)?;
    Ok(program)
}

/// The same but for 28, for whoever tells which names are bad.
pub fn check_but_names(bytes: &[u8]) -> Result<Program<'_>, u32> {
    let book = Book::new(bytes).ok_or(CONTENTS)?;
    refuse_if(!is_laid_out(book), CONTENTS)?;
    refuse_if(!counts_pass(book), COUNT)?;
    refuse_if(!fields_pass(book), FIELD)?;
    let program = Program::decode(book);
    refuse_if(!is_forest(&program), FOREST)?;
    let too_deep = program.nodes().iter().any(|node| node.depth > MOST_DEPTH);
    refuse_if(too_deep, DEPTH)?;
    Ok(program)
}

/// The bodies stand in table order from the table's end to the book's end,
/// in exact arithmetic; an empty section too has its running offset.
fn is_laid_out(book: Book) -> bool {
    let mut end = CONTENTS_SIZE as u64;
    for section in Section::ALL {
        if u64::from(book.offset(section)) != end {
            return false;
        }
        end += u64::from(book.count(section)) * section.record_size() as u64;
    }
    end == book.size() as u64
}

fn counts_pass(book: Book) -> bool {
    Section::ALL
        .iter()
        .all(|section| book.count(*section) as usize <= section.most())
}

/// Every field and every reached list entry is in range for its use.
fn fields_pass(book: Book) -> bool {
    let is_name = is_in(book, Section::Names);
    let is_axiom = is_in(book, Section::Axioms);
    let is_function = is_in(book, Section::Functions);
    let is_term = is_in(book, Section::Terms);
    let is_type = |number| is_type(book, number);

    let letters = book
        .letters()
        .iter()
        .all(|letter| (FIRST_LETTER..=LAST_LETTER).contains(letter));
    let names = book
        .records(Section::Names)
        .all(|[start, length]| Range::new(start, length).fits(book.count(Section::Letters)));
    let types = book.records(Section::Types).all(|[name]| is_name(name));
    let constants = book
        .records(Section::Constants)
        .all(|[name, typ]| is_name(name) && is_type(typ));
    let functions = book.records(Section::Functions).all(
        |[name, typ, inputs, input_count, axioms, axiom_count]| {
            is_name(name)
                && is_type(typ)
                && range_passes(book, inputs, input_count, is_type)
                && range_passes(book, axioms, axiom_count, is_axiom)
        },
    );
    let axioms = book.records(Section::Axioms).all(|[term, start, count]| {
        (term == NO_TERM || is_term(term)) && range_passes(book, start, count, is_function)
    });
    let patterns = book
        .records(Section::Patterns)
        .all(|[start, count]| range_passes(book, start, count, is_term));
    let terms = book
        .records(Section::Terms)
        .all(|record| term_passes(book, record));
    // Context record i is node i + 1, so a smaller node number is at most i.
    let contexts =
        book.records(Section::Contexts)
            .enumerate()
            .all(|(record, [parent, term, trace])| {
                parent as usize <= record && is_term(term) && trace <= book.count(Section::Names)
            });
    letters && names && types && constants && functions && axioms && patterns && terms && contexts
}

fn is_in(book: Book<'_>, section: Section) -> impl Fn(u32) -> bool + Copy + use<'_> {
    move |number| number < book.count(section)
}

fn is_type(book: Book, number: u32) -> bool {
    number < FIRST_USER_TYPE + book.count(Section::Types)
}

/// The range lies in the lists, and each entry passes.
fn range_passes(book: Book, start: u32, count: u32, passes: impl Fn(u32) -> bool) -> bool {
    let range = Range::new(start, count);
    range.fits(book.count(Section::Lists)) && book.entries(range).all(passes)
}

fn term_passes(book: Book, record: [u32; TERM_FIELDS]) -> bool {
    let is_name = is_in(book, Section::Names);
    let is_constant = is_in(book, Section::Constants);
    let is_function = is_in(book, Section::Functions);
    let is_pattern = is_in(book, Section::Patterns);
    let is_term = is_in(book, Section::Terms);
    let is_bool = |number: u32| number <= 1;

    let [kind, a, b, c, d, e, f] = record;
    let (used_pass, unused): (bool, &[u32]) = match kind {
        kind::BOOLEAN => (is_bool(a), &[b, c, d, e, f]),
        kind::INTEGER => (true, &[c, d, e, f]),
        kind::CUSTOM_LITERAL => (is_name(a) && is_type(book, b), &[c, d, e, f]),
        kind::ID => (is_constant(a), &[b, c, d, e, f]),
        kind::BUILT_IN => (is_name(a) && range_passes(book, b, c, is_term), &[d, e, f]),
        kind::FUNCTION => (
            is_function(a) && range_passes(book, b, c, is_term),
            &[d, e, f],
        ),
        kind::IF_THEN_ELSE => (is_term(a) && is_term(b) && is_term(c), &[d, e, f]),
        kind::LET => (is_constant(a) && is_term(b) && is_term(c), &[d, e, f]),
        kind::QUANTIFIER => (
            is_bool(a)
                && range_passes(book, b, c, is_constant)
                && range_passes(book, d, e, is_pattern)
                && is_term(f),
            &[],
        ),
        _ => return false,
    };
    used_pass && unused.iter().all(|field| *field == 0)
}

/// Children are smaller than their parents, and no term is referred to twice
/// by terms, axioms and contexts together.
fn is_forest(program: &Program) -> bool {
    let mut referred = vec![false; program.terms.len()];
    let mut refer = |term: usize| !std::mem::replace(&mut referred[term], true);
    for parent in 0..program.terms.len() {
        for child in program.children(parent) {
            if child >= parent || !refer(child) {
                return false;
            }
        }
    }
    let from_axioms = program.axioms.iter().filter_map(|axiom| axiom.term);
    let from_contexts = program.nodes().iter().map(|node| node.expr);
    from_axioms.chain(from_contexts).all(refer)
}

/// Every type, constant and function has a name that can go to a solver, and so
/// has every literal that is declared by one, used or not.
fn names_pass(program: &Program) -> bool {
    let types = program.types.iter().map(|typ| typ.name);
    let constants = program.constants.iter().map(|constant| constant.name);
    let functions = program.functions.iter().map(|function| function.name);
    let mut declared = types.chain(constants).chain(functions);
    declared.all(is_name)
        && program
            .terms
            .iter()
            .all(|term| literal_passes(program, term))
}

/// The name that a literal is printed by has bars of its own, so neither part of
/// it holds any. That of `%tag` is never printed.
fn literal_passes(program: &Program, term: &RExpr) -> bool {
    match term {
        RExpr::CustomLiteral { s, typ } if *s != TAG => !has_bar(s) && !has_bar(typ.text(program)),
        _ => true,
    }
}
