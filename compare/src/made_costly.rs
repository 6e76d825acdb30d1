//! Books that cost more than their text or their bytes suggest: ranges that
//! overlap, and names that differ late.

use leskofar_reference::book::{kind, Section, BOOL, INT};
use leskofar_reference::maker::Maker;

const SHARED: &str = "x";
/// An axiom without a term.
const NO_TERM: u32 = u32::MAX;

/// As many functions as there can be. All list axiom 0, once for each entry but
/// the last; it explains function 0 as often, and then the last function. So it
/// is looked up over and over, and the last entry alone tells that it is not to
/// be sent yet. The last term applies the functions in their order.
pub fn explained_often(entries: usize) -> Maker {
    let mut m = Maker::default();
    let last = Section::Functions.most() as u32 - 1;
    let [start, all] = [0, entries as u32];
    m.lists = vec![0; entries];
    m.lists[entries - 1] = last;
    let name = m.name(SHARED);
    let truth = m.boolean(true);
    m.axioms = vec![[NO_TERM, start, 0]; Section::Axioms.most()];
    m.axioms[0] = [truth, start, all];
    m.functions = vec![[name, INT, start, 0, start, all - 1]; last as usize + 1];
    let mut rest = m.apply(last, &[]);
    for function in (0..last).rev() {
        let guard = m.apply(function, &[]);
        let thn = m.boolean(true);
        rest = m.if_then_else(guard, thn, rest);
    }
    m
}

/// As many quantifiers as there can be terms, each over the same so many
/// constants and the same so many empty patterns.
pub fn overlapping(entries: usize) -> Maker {
    let mut m = Maker::default();
    m.constant(SHARED, INT);
    m.pattern(&[]);
    m.lists = vec![0; entries];
    add_nest(&mut m, Section::Terms.most());
    m
}

/// The same with as many constants and patterns as there can be, with names of
/// so many letters for the constant and its type, and with the quantifiers
/// shared out among the nodes of a path.
pub fn longest(letters: usize, depth: usize) -> Maker {
    let mut m = Maker::default();
    let typ = m.user_type(&"t".repeat(letters));
    let [name] = m.types[0];
    m.constants.push([name, typ]);
    m.pattern(&[]);
    m.lists = vec![0; Section::Lists.most()];
    for node in 0..depth {
        let premise = add_nest(&mut m, Section::Terms.most() / depth);
        m.context(node as u32, premise);
    }
    m
}

/// So many terms inside each other, quantifiers over all entries.
fn add_nest(m: &mut Maker, terms: usize) -> u32 {
    let all = m.lists.len() as u32;
    let mut whole = m.boolean(true);
    for _ in 1..terms {
        whole = m.term(kind::QUANTIFIER, [1, 0, all, 0, all, whole]);
    }
    whole
}

/// So many names, each so many letters long, which differ in their last
/// letters; two literals of each. One name goes to the operator.
pub fn alike(letters: usize, names: usize) -> Maker {
    let mut m = Maker::default();
    let op = m.name("and");
    let first = m.letters.len();
    m.letters.extend(vec![b'a'; letters + names]);
    // A name that starts one letter later has the only other letter one place earlier.
    m.letters[first + letters - 1] = b'b';
    let names: Vec<u32> = (0..names)
        .map(|start| {
            m.names.push([(first + start) as u32, letters as u32]);
            m.names.len() as u32 - 1
        })
        .collect();
    let literals: Vec<[u32; 2]> = names
        .iter()
        .flat_map(|n| [BOOL, INT].map(|t| [*n, t]))
        .collect();
    let args: Vec<u32> = literals
        .into_iter()
        .map(|l| m.term(kind::CUSTOM_LITERAL, l))
        .collect();
    let [start, count] = m.list(&args);
    m.term(kind::BUILT_IN, [op, start, count]);
    m
}

/// Lengths of types' names, and types of each length: together as many as
/// there can be.
const SPLITS: usize = 16;
const TYPES_OF_A_LENGTH: usize = 4;

/// So many literals, whose text and type have so many letters together, by
/// different splits: all whole names have one length, and differ late. The
/// texts overlap.
pub fn split_alike(letters: usize, literals: usize) -> Maker {
    let mut m = Maker::default();
    let op = m.name("and");
    let mut by_split = Vec::new();
    for length in 1..=SPLITS {
        let types: Vec<u32> = (0..TYPES_OF_A_LENGTH)
            .map(|last| m.user_type(&format!("{last:a>length$}")))
            .collect();
        by_split.push((letters - length, types));
    }
    let first = m.letters.len();
    m.letters.extend(vec![b'a'; letters + SPLITS]);
    // The only other letter is in every text, and in each at another place.
    m.letters[first + letters - SPLITS - 1] = b'b';
    let mut args = Vec::new();
    for start in first..first + SPLITS {
        for (length, types) in &by_split {
            let name = m.names.len() as u32;
            m.names.push([start as u32, *length as u32]);
            let terms = types.iter();
            args.extend(terms.map(|typ| m.term(kind::CUSTOM_LITERAL, [name, *typ])));
        }
    }
    args.truncate(literals);
    m.terms.truncate(literals);
    let [start, count] = m.list(&args);
    m.term(kind::BUILT_IN, [op, start, count]);
    m
}
