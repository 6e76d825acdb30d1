//! Random books for audits, mostly without `%tag`.

use crate::session_books::{chain_book, session_book};
use leskofar_reference::book::{kind, Section, NO_TERM};
use leskofar_reference::book_test::MOST_DEPTH;
use leskofar_reference::lower::TAG;
use leskofar_reference::maker::Maker;
use leskofar_reference::name_faults::{may_be_declared, may_be_in_literal};
use leskofar_reference::random::{Random, AT_TIMES, HARDLY_EVER, OFTEN, RARELY};
use leskofar_reference::random_books::{random_book, Counts};
use leskofar_reference::sane_books::sane_book;

/// Names that make odd lines, or lines that only look odd, each with whether a
/// line that has it as it is is a command all the same.
pub const ODD_NAMES: [(&str, bool); 26] = [
    ("", true),
    (" ", true),
    ("a b", true),
    ("|", false),
    ("||", true),
    ("|||", false),
    ("||||", true),
    ("|a b|", true),
    ("|(|", true),
    ("|)|", true),
    ("|;|", true),
    ("|\"|", true),
    ("a|b|c", true),
    (";", false),
    ("a;b", false),
    ("|a;", false),
    ("\"", false),
    ("\"\"", false),
    ("(", false),
    (")", false),
    ("()", true),
    (CLOSES_AND_OPENS, false),
    ("(a)", true),
    ("\\", true),
    ("%tag", true),
    ("~", true),
];
/// What a line may have outside of bars only where it has opened enough.
pub const CLOSES_AND_OPENS: &str = ")(";
/// The most names of a book that become odd.
const ODD: usize = 3;
/// What has names: types, constants, functions, literals and operators.
const NAMED: usize = 5;
/// The sizes of random books.
const SIZES: [usize; 4] = [1, 2, 4, 8];

/// A good book of any sort.
pub fn audit_book(random: &mut Random) -> Maker {
    let mut m = if random.one_in(2 * HARDLY_EVER) {
        let depth = random.up_to(MOST_DEPTH);
        chain_book(random, depth)
    } else if random.one_in(OFTEN) {
        sane_book(random)
    } else if random.one_in(AT_TIMES) {
        let size = random.pick(&SIZES);
        let counts = Counts::random(random, size);
        random_book(random, counts)
    } else {
        session_book(random)
    };
    if random.one_in(RARELY) {
        name_oddly(random, &mut m);
    }
    if random.one_in(AT_TIMES) {
        lose_axioms(random, &mut m);
    }
    if random.one_in(AT_TIMES) && !m.constants.is_empty() {
        declare_alike(random, &mut m);
    }
    if !random.one_in(HARDLY_EVER) {
        leave_out_tags(&mut m);
    }
    m
}

/// Takes their terms from some axioms.
fn lose_axioms(random: &mut Random, m: &mut Maker) {
    for axiom in &mut m.axioms {
        if random.one_in(OFTEN) {
            axiom[0] = NO_TERM;
        }
    }
}

/// Makes most constants of a book two sorts that look alike, so that a level has
/// lines more than once.
fn declare_alike(random: &mut Random, m: &mut Maker) {
    let sorts = [(); 2].map(|()| random.pick(&m.constants));
    for constant in &mut m.constants {
        if !random.one_in(AT_TIMES) {
            *constant = random.pick(&sorts);
        }
    }
}

/// Gives odd names to some types, constants, functions, literals and operators,
/// such as they may have.
fn name_oddly(random: &mut Random, m: &mut Maker) {
    for _ in 0..=random.below(ODD) {
        if m.names.len() == Section::Names.most() {
            return;
        }
        let (text, _) = random.pick(&ODD_NAMES);
        let name = m.name(text);
        let named = match random.below(NAMED) {
            // A literal may be of any type.
            0 if may_be_declared(text) && may_be_in_literal(text) => named(random, &mut m.types),
            1 if may_be_declared(text) => named(random, &mut m.constants),
            2 if may_be_declared(text) => named(random, &mut m.functions),
            3 if may_be_in_literal(text) => named_term(m, kind::CUSTOM_LITERAL),
            4 => named_term(m, kind::BUILT_IN),
            _ => None,
        };
        if let Some(field) = named {
            *field = name;
        }
    }
}

/// The name of the first term of a kind.
fn named_term(m: &mut Maker, kind: u32) -> Option<&mut u32> {
    let mut terms = m.terms.iter_mut();
    let first = terms.find(|term| term[0] == kind);
    first.map(|term| &mut term[1])
}

/// The name of a record, which is its first field, if there are records.
fn named<'m, const N: usize>(
    random: &mut Random,
    records: &'m mut [[u32; N]],
) -> Option<&'m mut u32> {
    let at = random.below(records.len().max(1));
    records.get_mut(at).map(|record| &mut record[0])
}

/// `true` in place of every `%tag`.
fn leave_out_tags(m: &mut Maker) {
    let is_tag = |[start, length]: [u32; 2]| {
        let start = start as usize;
        &m.letters[start..start + length as usize] == TAG
    };
    let tags: Vec<bool> = m.names.iter().map(|name| is_tag(*name)).collect();
    for term in &mut m.terms {
        let [kind, name, ..] = *term;
        if kind == kind::CUSTOM_LITERAL && tags[name as usize] {
            *term = [kind::BOOLEAN, 1, 0, 0, 0, 0, 0];
        }
    }
}
