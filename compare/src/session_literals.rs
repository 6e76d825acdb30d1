//! Session calls on books of literals: where a declared name is found, and
//! where it is not, against the reference.

use crate::calls::Call;
use crate::literal_shapes::{
    BY_AN_AXIOM, DECLARED, FOUND_HIGHER, FOUND_LAST, FOUND_LOWER, IS_TAG, OTHER_PLACE, OTHER_SPLIT,
    SAME_PLACE,
};
use crate::literal_tours::{failed, go, proved, refuted, Tour};
use crate::made_literals::{
    below_the_deepest, declared_last, different_names, equal_names, in_axiom, literal_arguments,
    literal_nodes, one_name, one_place, same_text, siblings, tags_between, two_names, Filling,
    InAxiom, NEW_NAMES,
};
use crate::tally::Tally;
use leskofar_reference::book::Section;
use leskofar_reference::book_test::MOST_DEPTH;
use leskofar_reference::maker::Maker;

/// Terms of books whose last one is declared first.
const LAST_OF: [usize; 5] = [3, 4, 63, 64, Section::Terms.most()];

/// The books of as many literals as there can be, and what they meet.
const FILLINGS: [(&str, Filling, &[&str]); 6] = [
    (
        "one name",
        one_name,
        &[DECLARED, FOUND_LOWER, FOUND_HIGHER, FOUND_LAST, SAME_PLACE],
    ),
    (
        "one text at different places",
        equal_names,
        &[
            DECLARED,
            FOUND_LOWER,
            FOUND_HIGHER,
            FOUND_LAST,
            SAME_PLACE,
            OTHER_PLACE,
        ],
    ),
    (
        "one place in different records",
        one_place,
        &[DECLARED, FOUND_LOWER, FOUND_HIGHER, FOUND_LAST, SAME_PLACE],
    ),
    ("different names", different_names, &[DECLARED]),
    (
        "two names in turn",
        two_names,
        &[DECLARED, FOUND_LOWER, FOUND_HIGHER, FOUND_LAST, SAME_PLACE],
    ),
    (
        "names with %tag between them",
        tags_between,
        &[
            IS_TAG,
            DECLARED,
            FOUND_LOWER,
            FOUND_HIGHER,
            FOUND_LAST,
            SAME_PLACE,
        ],
    ),
];

/// Along the chains of nodes, down, up and from one to another, with questions
/// of terms that are on the way and that are not.
fn along_chains() -> Vec<Call> {
    let end = MOST_DEPTH as u32;
    let last = Section::Contexts.most() as u32;
    let last_term = Section::Terms.most() as u32 - 1;
    [
        go(end),
        proved(end, 0),
        go(end / 2),
        refuted(end, last_term),
        go(last),
        failed(last, last_term),
        go(0),
        proved(0, last_term),
        go(end + 1),
    ]
    .concat()
}

/// To the one node and back, with questions of its term and of a literal.
fn at_one_node() -> Vec<Call> {
    let goal = Section::Terms.most() as u32 - 1;
    [
        go(1),
        proved(1, goal),
        refuted(1, 0),
        go(0),
        failed(0, goal),
        go(1),
    ]
    .concat()
}

fn filled_groups(tally: &mut Tally) {
    for (name, fill, shapes) in FILLINGS {
        let most = Section::Terms.most();
        tally.group(&format!("session, {most} literals of {name}"), || {
            let mut tour = Tour::new();
            tour.on(&literal_nodes(fill), &along_chains())?;
            for highest_first in [false, true] {
                tour.on(&literal_arguments(fill, highest_first), &at_one_node())?;
            }
            tour.only(shapes)
        });
    }
}

/// Fails unless each step declares so many literals.
fn declares(tour: &mut Tour, m: &Maker, steps: &[(Vec<Call>, usize)]) -> Result<(), String> {
    let calls: Vec<Call> = steps.iter().flat_map(|(calls, _)| calls.clone()).collect();
    let mut declared = tour.on(m, &calls)?.into_iter();
    for (calls, expected) in steps {
        let by_step: usize = declared.by_ref().take(calls.len()).sum();
        if by_step != *expected {
            return Err(format!("{by_step} declared, not {expected}, by {calls:?}"));
        }
    }
    Ok(())
}

fn last_group(tally: &mut Tally) {
    tally.group("session, literals declared at the highest term", || {
        let mut tour = Tour::new();
        for terms in LAST_OF {
            let goal = (terms as u32 - 1) % 2;
            let steps = [
                (go(1), 1),
                (go(2), 0),
                (proved(1, goal), 0),
                (go(3), 1),
                (refuted(0, goal), 1),
                (failed(1, goal), 1),
                (go(2), 0),
            ];
            declares(&mut tour, &declared_last(terms), &steps)?;
        }
        tour.only(&[DECLARED, FOUND_HIGHER, FOUND_LAST, SAME_PLACE])
    });
}

fn deepest_group(tally: &mut Tally) {
    tally.group("session, literals of a goal below the deepest node", || {
        let mut tour = Tour::new();
        let m = below_the_deepest();
        let deepest = MOST_DEPTH as u32;
        let goal = m.terms.len() as u32 - 1;
        let steps = [
            (go(deepest), MOST_DEPTH),
            (proved(deepest, goal), NEW_NAMES),
            // There the deepest node's is new too.
            (refuted(deepest - 1, goal), 1 + NEW_NAMES),
            (failed(deepest, goal), 1 + NEW_NAMES),
            // And here the first node's.
            (proved(0, goal), 2 + NEW_NAMES),
        ];
        declares(&mut tour, &m, &steps)?;
        tour.only(&[DECLARED])
    });
}

fn axiom_group(tally: &mut Tally) {
    tally.group("session, literals declared in an axiom", || {
        let mut tour = Tour::new();
        let InAxiom {
            maker,
            literal,
            applied,
        } = in_axiom();
        let steps = [
            // The axiom's is the first.
            (go(1), 1),
            (go(2), 0),
            (proved(1, literal), 0),
            (go(5), 1),
            // The node's is the first.
            (go(3), 1),
            (go(4), 0),
            (refuted(3, applied), 0),
            (go(6), 1),
            // Neither is there.
            (failed(0, literal), 1),
            (proved(0, applied), 1),
            (proved(2, applied), 1),
        ];
        declares(&mut tour, &maker, &steps)?;
        tour.shapes
            .all_of(&[DECLARED, BY_AN_AXIOM, FOUND_LOWER, OTHER_SPLIT])?;
        tour.said()
    });
}

fn popped_group(tally: &mut Tally) {
    tally.group("session, popped literals declared anew", || {
        let mut tour = Tour::new();
        for fill in [one_name, equal_names, one_place, same_text] {
            let m = siblings(fill);
            let goal = m.terms.len() as u32 - 1;
            let steps = [
                (go(1), 1),
                (go(2), 1),
                (go(1), 1),
                (go(3), 0),
                (proved(3, goal), 0),
                (go(4), 1),
                (go(2), 0),
                (go(4), 0),
                (go(0), 0),
                (proved(0, goal), 1),
                (refuted(0, goal), 1),
                (go(2), 1),
                (failed(0, goal), 1),
                (proved(1, goal), 1),
                (refuted(4, goal), 1),
            ];
            declares(&mut tour, &m, &steps)?;
        }
        tour.only(&[DECLARED, FOUND_LOWER, SAME_PLACE, OTHER_PLACE, OTHER_SPLIT])
    });
}

pub fn run(tally: &mut Tally) {
    filled_groups(tally);
    last_group(tally);
    deepest_group(tally);
    axiom_group(tally);
    popped_group(tally);
}
