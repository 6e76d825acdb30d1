//! Refusal 4: letters, fields and reached list entries.

use crate::book_refusals::{changed, full, of_kind};
use leskofar_reference::book::{kind, NO_TERM};
use leskofar_reference::maker::Maker;
use leskofar_reference::refusal::FIELD;

#[test]
fn four_is_for_letters_and_names() {
    for (letter, answer) in [
        (0x1F, Err(FIELD)),
        (0x20, Ok(())),
        (0x7E, Ok(())),
        (0x7F, Err(FIELD)),
        (0x0A, Err(FIELD)),
        (0xFF, Err(FIELD)),
    ] {
        assert_eq!(changed(|m| m.letters[0] = letter), answer);
        // Also a letter that no name covers.
        assert_eq!(changed(|m| m.letters.push(letter)), answer);
    }
    let letters = full().letters.len() as u32;
    for (name, answer) in [
        ([letters, 0], Ok(())),
        ([0, letters], Ok(())),
        ([letters + 1, 0], Err(FIELD)),
        ([1, letters], Err(FIELD)),
        ([u32::MAX, 1], Err(FIELD)),
        ([1, u32::MAX], Err(FIELD)),
    ] {
        assert_eq!(changed(|m| m.names.push(name)), answer);
    }
}

#[test]
fn four_is_for_fields_out_of_range() {
    let m = full();
    let [names, lists] = [m.names.len(), m.lists.len()].map(|count| count as u32);
    let [terms, types] = [m.terms.len(), m.types.len() + 2].map(|count| count as u32);
    let [axioms, functions] = [m.axioms.len(), m.functions.len()].map(|count| count as u32);
    for (answer, shift) in [(Ok(()), 0), (Err(FIELD), 1)] {
        assert_eq!(changed(|m| m.types.push([names - 1 + shift])), answer);
        assert_eq!(
            changed(|m| m.constants.push([names - 1 + shift, 0])),
            answer
        );
        assert_eq!(
            changed(|m| m.constants.push([0, types - 1 + shift])),
            answer
        );
        for function in [
            [names - 1 + shift, 0, 0, 0, 0, 0],
            [0, types - 1 + shift, 0, 0, 0, 0],
            [0, 0, lists + shift, 0, 0, 0],
            [0, 0, 0, 0, lists + shift, 0],
        ] {
            assert_eq!(changed(|m| m.functions.push(function)), answer);
        }
        assert_eq!(
            changed(|m| m.axioms.push([NO_TERM, lists + shift, 0])),
            answer
        );
        assert_eq!(changed(|m| m.patterns.push([lists + shift, 0])), answer);
        let entry = |m: &mut Maker, number: u32| m.list(&[number])[0];
        let listed = [
            changed(|m| {
                let start = entry(m, types - 1 + shift);
                m.functions.push([0, 0, start, 1, 0, 0]);
            }),
            changed(|m| {
                let start = entry(m, axioms - 1 + shift);
                m.functions.push([0, 0, 0, 0, start, 1]);
            }),
            changed(|m| {
                let start = entry(m, functions - 1 + shift);
                m.axioms.push([NO_TERM, start, 1]);
            }),
            changed(|m| {
                let start = entry(m, terms - 1 + shift);
                m.patterns.push([start, 1]);
            }),
        ];
        assert_eq!(listed, [answer; 4]);
        let trace = names + shift;
        assert_eq!(changed(|m| m.contexts[2][2] = trace), answer);
        assert_eq!(changed(|m| m.contexts[1][0] = 1 + shift), answer);
    }
    for term in [terms, NO_TERM - 1] {
        assert_eq!(changed(|m| m.axioms[0][0] = term), Err(FIELD));
    }
    assert_eq!(changed(|m| m.contexts[0][1] = terms), Err(FIELD));
    assert_eq!(changed(|m| m.contexts[0][0] = 4), Err(FIELD));
    assert_eq!(changed(|m| m.patterns.push([u32::MAX, 1])), Err(FIELD));
    assert_eq!(changed(|m| m.patterns.push([1, u32::MAX])), Err(FIELD));
    assert_eq!(changed(|m| m.lists.push(u32::MAX)), Ok(()));
}

#[test]
fn four_is_for_unused_fields_and_kinds() {
    let used = [1, 2, 2, 1, 3, 3, 3, 3, 6];
    for (kind, used) in used.into_iter().enumerate() {
        let term = of_kind(&full(), kind as u32);
        for field in used + 1..7 {
            assert_eq!(changed(|m| m.terms[term][field] = 1), Err(FIELD));
        }
    }
    for kind in [kind::QUANTIFIER + 1, u32::MAX] {
        assert_eq!(
            changed(|m| m.terms.push([kind, 0, 0, 0, 0, 0, 0])),
            Err(FIELD)
        );
    }
    assert_eq!(
        changed(|m| {
            m.term(kind::INTEGER, [u32::MAX, u32::MAX]);
        }),
        Ok(())
    );
}

#[test]
fn four_is_for_used_fields_of_terms() {
    let m = full();
    let [names, lists] = [m.names.len(), m.lists.len()].map(|count| count as u32);
    let [terms, types] = [m.terms.len(), m.types.len() + 2].map(|count| count as u32);
    let (constants, functions) = (m.constants.len() as u32, m.functions.len() as u32);
    let cases: &[(u32, usize, u32)] = &[
        (kind::BOOLEAN, 1, 2),
        (kind::CUSTOM_LITERAL, 1, names),
        (kind::CUSTOM_LITERAL, 2, types),
        (kind::ID, 1, constants),
        (kind::BUILT_IN, 1, names),
        (kind::BUILT_IN, 2, lists),
        (kind::BUILT_IN, 3, u32::MAX),
        (kind::FUNCTION, 1, functions),
        (kind::FUNCTION, 2, lists),
        (kind::IF_THEN_ELSE, 1, terms),
        (kind::IF_THEN_ELSE, 2, terms),
        (kind::IF_THEN_ELSE, 3, terms),
        (kind::LET, 1, constants),
        (kind::LET, 2, terms),
        (kind::LET, 3, terms),
        (kind::QUANTIFIER, 1, 2),
        (kind::QUANTIFIER, 2, lists),
        (kind::QUANTIFIER, 4, lists),
        (kind::QUANTIFIER, 5, u32::MAX),
        (kind::QUANTIFIER, 6, terms),
    ];
    for (kind, field, value) in cases {
        let term = of_kind(&m, *kind);
        assert_eq!(changed(|m| m.terms[term][*field] = *value), Err(FIELD));
    }
    // The entries that terms reach.
    for (kind, start) in [
        (kind::BUILT_IN, 2),
        (kind::FUNCTION, 2),
        (kind::QUANTIFIER, 2),
        (kind::QUANTIFIER, 4),
    ] {
        let entry = m.terms[of_kind(&m, kind)][start] as usize;
        assert_eq!(changed(|m| m.lists[entry] = terms), Err(FIELD));
    }
    // A quantifier without variables still uses its pattern fields.
    let quantifier = of_kind(&m, kind::QUANTIFIER);
    let unbound = |m: &mut Maker| m.terms[quantifier][3] = 0;
    assert_eq!(changed(unbound), Ok(()));
}
