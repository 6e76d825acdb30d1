//! What each call of the writer appends, by hand.

use crate::writer_desk::{accepted, bytes, grown, Growth};
use leskofar_reference::book::{kind, Book, Section, BOOL, INT};
use leskofar_reference::book_test::{check, MOST_DEPTH};
use leskofar_reference::maker::{sample, Maker};
use leskofar_reference::random::Random;
use leskofar_reference::random_books::{random_book, Counts};

/// A book's records.
pub fn records(book: &[u8]) -> Maker {
    Maker::of(Book::new(book).expect("a table of contents"))
}

/// All names of a book, by number.
fn names(book: &[u8]) -> Vec<String> {
    let book = Book::new(book).expect("a table of contents");
    let text = |name| String::from_utf8(book.name(name).to_vec()).expect("ASCII");
    (0..book.count(Section::Names)).map(text).collect()
}

fn empty() -> Vec<u8> {
    Maker::default().book()
}

/// A term for every node that is to come.
fn with_terms(terms: usize) -> Maker {
    let mut m = Maker::default();
    for _ in 0..terms {
        m.boolean(false);
    }
    m
}

#[test]
fn the_worked_growths() {
    let (node, first) = grown(&empty(), &Growth::trace_point(0, "start")).expect("accepted");
    assert_eq!((node, first.len()), (1, 229));
    assert_eq!(names(&first), ["probe%0", "=", "start"]);
    let m = records(&first);
    assert_eq!(m.letters, b"probe%0=start");
    assert_eq!(m.names, [[0, 7], [7, 1], [8, 5]]);
    assert_eq!(m.constants, [[0, BOOL]]);
    let terms = [
        [kind::BOOLEAN, 1, 0, 0, 0, 0, 0],
        [kind::ID, 0, 0, 0, 0, 0, 0],
        [kind::BUILT_IN, 1, 0, 2, 0, 0, 0],
    ];
    assert_eq!(m.terms, terms);
    assert_eq!(m.contexts, [[0, 2, 3]]);
    assert_eq!(m.lists, [1, 0]);

    let seven = Growth::term([kind::INTEGER, 7, 0, 0, 0, 0, 0], [&[], &[]]);
    let (term, second) = grown(&first, &seven).expect("accepted");
    assert_eq!((term, second.len()), (3, 257));
    let (node, third) = grown(&second, &Growth::record(1, term, INT, None)).expect("accepted");
    assert_eq!((node, third.len()), (2, 356));
    assert_eq!(names(&third), ["probe%0", "=", "start", "probe%1"]);
    let m = records(&third);
    assert_eq!(m.constants, [[0, BOOL], [3, INT]]);
    assert_eq!(m.terms[4..], [[3, 1, 0, 0, 0, 0, 0], [4, 1, 2, 2, 0, 0, 0]]);
    assert_eq!(m.contexts, [[0, 2, 3], [1, 5, 4]]);
    assert_eq!(m.lists, [1, 0, 4, 3]);
}

#[test]
fn a_name_is_appended_also_where_its_text_stands() {
    let mut book = empty();
    for (number, text) in ["a", "a", "", "", "a"].into_iter().enumerate() {
        let (name, grown) = grown(&book, &Growth::name(text)).expect("accepted");
        assert_eq!(name, number as u32);
        book = grown;
    }
    let m = records(&book);
    assert_eq!(m.letters, b"aaa");
    assert_eq!(m.names, [[0, 1], [1, 1], [0, 0], [0, 0], [2, 1]]);
}

#[test]
fn constants_and_nodes_are_their_records() {
    let mut m = with_terms(2);
    let typ = m.user_type("T");
    let book = m.book();
    let (number, grown_book) = grown(&book, &Growth::Constant([0, typ])).expect("accepted");
    assert_eq!(number, 0);
    let (number, grown_book) = grown(&grown_book, &Growth::Constant([0, BOOL])).expect("accepted");
    assert_eq!(number, 1);
    assert_eq!(records(&grown_book).constants, [[0, typ], [0, BOOL]]);
    // The trace is a name's number + 1, or 0.
    let (node, below) = grown(&grown_book, &Growth::Node([0, 1, 0])).expect("accepted");
    assert_eq!(node, 1);
    let (node, below) = grown(&below, &Growth::Node([1, 0, 1])).expect("accepted");
    assert_eq!(node, 2);
    assert_eq!(records(&below).contexts, [[0, 1, 0], [1, 0, 1]]);
}

/// Where the record of a kind has the starts of its ranges.
fn range_fields(kind: u32) -> &'static [usize] {
    match kind {
        kind::BUILT_IN | kind::FUNCTION => &[2],
        kind::QUANTIFIER => &[2, 4],
        _ => &[],
    }
}

#[test]
fn the_lists_of_a_term_stand_behind_the_others_in_field_order() {
    let mut m = with_terms(4);
    let [x, y] = ["x", "y"].map(|name| m.constant(name, INT));
    let f = m.function("f", &[INT], INT);
    let pattern = m.pattern(&[3]);
    let old = m.lists.clone();
    for (record, lists) in [
        ([kind::BUILT_IN, 0, 0, 0, 0, 0, 0], [&[0, 1][..], &[]]),
        ([kind::FUNCTION, f, 0, 0, 0, 0, 0], [&[2], &[]]),
        ([kind::FUNCTION, f, 0, 0, 0, 0, 0], [&[], &[]]),
        (
            [kind::QUANTIFIER, 1, 0, 0, 0, 0, 2],
            [&[y, x, y], &[pattern]],
        ),
        ([kind::QUANTIFIER, 0, 0, 0, 0, 0, 2], [&[], &[pattern]]),
        ([kind::QUANTIFIER, 0, 0, 0, 0, 0, 2], [&[x], &[]]),
        ([kind::IF_THEN_ELSE, 0, 1, 2, 0, 0, 0], [&[], &[]]),
        ([kind::LET, x, 1, 2, 0, 0, 0], [&[], &[]]),
    ] {
        let answer = grown(&m.book(), &Growth::term(record, lists));
        let (number, grown_book) = answer.expect("accepted");
        assert_eq!(number, 4);
        let mut expected = record;
        let mut entries = old.clone();
        for (field, list) in range_fields(record[0]).iter().zip(lists) {
            let start = if list.is_empty() { 0 } else { entries.len() };
            expected[*field] = start as u32;
            expected[field + 1] = list.len() as u32;
            entries.extend(list);
        }
        let m = records(&grown_book);
        assert_eq!(m.terms[4], expected);
        assert_eq!(m.lists, entries);
    }
}

#[test]
fn numbers_of_lists_are_little_endian_and_appended_byte_for_byte() {
    let mut m = with_terms(0x0201 + 1);
    m.name("f");
    let list = vec![0x01, 0x02, 0x00, 0x00];
    let growth = Growth::Term([kind::BUILT_IN, 0, 0, 0, 0, 0, 0], [list.clone(), vec![]]);
    let book = accepted(&m.book(), &growth);
    assert!(book.ends_with(&list));
    assert_eq!(records(&book).lists, [0x0201]);
}

#[test]
fn the_first_name_with_a_text_is_taken() {
    let mut m = with_terms(1);
    m.constant("c", INT);
    for text in ["=", "probe%0", "here", "=", "probe%0", "here", ""] {
        m.name(text);
    }
    let book = m.book();
    let old = names(&book);
    for growth in [
        Growth::extend(0, 0, Some("here")),
        Growth::extend(0, 0, Some("")),
        Growth::extend(0, 0, None),
        Growth::Equality([0, 0, 0]),
        Growth::record(0, 0, INT, None),
        Growth::record(0, 0, INT, Some("=")),
        Growth::trace_point(0, "here"),
    ] {
        assert_eq!(names(&accepted(&book, &growth)), old);
    }
    let trace = |growth| records(&accepted(&book, &growth)).contexts[0][2];
    assert_eq!(trace(Growth::extend(0, 0, Some("here"))), 3 + 1);
    assert_eq!(trace(Growth::extend(0, 0, Some(""))), 7 + 1);
    assert_eq!(trace(Growth::extend(0, 0, None)), 0);
    assert_eq!(trace(Growth::Equality([0, 0, 0])), 0);
    assert_eq!(trace(Growth::record(0, 0, INT, None)), 2 + 1);
    assert_eq!(trace(Growth::record(0, 0, INT, Some("="))), 1 + 1);
    // The lowest number counts, not the lowest start; cut from other names too.
    let mut m = with_terms(1);
    m.letters = b"abab".to_vec();
    m.names = vec![[2, 2], [0, 2], [1, 1]];
    let found = |text| records(&accepted(&m.book(), &Growth::extend(0, 0, Some(text)))).contexts;
    assert_eq!(found("ab"), [[0, 0, 1]]);
    assert_eq!(found("b"), [[0, 0, 3]]);
    assert_eq!(found("a"), [[0, 0, 4]]);
}

#[test]
fn new_names_come_in_the_order_probe_equals_trace() {
    let mut m = with_terms(1);
    m.constant("c", INT);
    let book = m.book();
    let new = |growth: Growth| names(&accepted(&book, &growth)).split_off(1);
    assert_eq!(new(Growth::extend(0, 0, Some("t"))), ["t"]);
    assert_eq!(new(Growth::Equality([0, 0, 0])), ["="]);
    assert_eq!(
        new(Growth::record(0, 0, INT, Some("t"))),
        ["probe%0", "=", "t"]
    );
    assert_eq!(new(Growth::record(0, 0, INT, None)), ["probe%0", "="]);
    assert_eq!(new(Growth::trace_point(0, "t")), ["probe%0", "=", "t"]);
    // A trace that the call itself has appended is taken.
    assert_eq!(new(Growth::trace_point(0, "=")), ["probe%0", "="]);
    assert_eq!(new(Growth::trace_point(0, "probe%0")), ["probe%0", "="]);
    assert_eq!(new(Growth::record(0, 0, INT, Some("="))), ["probe%0", "="]);
    // An empty trace is a trace.
    assert_eq!(new(Growth::trace_point(0, "")), ["probe%0", "=", ""]);
    assert_eq!(new(Growth::extend(0, 0, Some(""))), [""]);
    let m = records(&accepted(&book, &Growth::record(0, 0, INT, Some(""))));
    assert_eq!(m.names.last(), Some(&[0, 0]));
    assert_eq!(m.contexts, [[0, 2, 4]]);
}

#[test]
fn the_probe_name_has_the_depth_of_the_parent() {
    let mut m = Maker::default();
    let depths = 0..MOST_DEPTH as u32;
    for node in depths.clone() {
        let term = m.boolean(true);
        m.context(node, term);
    }
    let goal = m.boolean(false);
    let book = m.book();
    for parent in depths {
        for growth in [
            Growth::record(parent, goal, INT, None),
            Growth::trace_point(parent, "t"),
        ] {
            let probe = format!("probe%{parent}");
            let grown = accepted(&book, &growth);
            assert_eq!(names(&grown)[0], probe);
            let program = check(&grown).expect("passes");
            assert_eq!(program.constants[0].name, probe.as_bytes());
        }
    }
    // Siblings get one name and two constants.
    let once = accepted(&book, &Growth::trace_point(3, "t"));
    let twice = accepted(&once, &Growth::trace_point(3, "t"));
    assert_eq!(names(&twice), ["probe%3", "=", "t"]);
    assert_eq!(records(&twice).constants, [[0, BOOL], [0, BOOL]]);
}

#[test]
fn constants_terms_and_entries_are_always_new() {
    let mut m = with_terms(1);
    let c = m.constant("c", INT);
    m.id(c);
    m.lists = vec![2, 0];
    let m = records(&accepted(&m.book(), &Growth::Equality([0, c, 0])));
    assert_eq!(m.terms[2..], [[3, c, 0, 0, 0, 0, 0], [4, 1, 2, 2, 0, 0, 0]]);
    assert_eq!(m.lists, [2, 0, 2, 0]);
    assert_eq!(m.contexts, [[0, 3, 0]]);
}

/// Every body is the old bytes and then the new ones, what nothing reaches
/// included; the old book is the new one without them.
#[test]
fn only_the_table_of_contents_changes() {
    let mut random = Random::new(5);
    let books = [0, 1, 4, 16].map(|size| {
        let counts = Counts::random(&mut random, size);
        random_book(&mut random, counts).book()
    });
    for book in books.into_iter().chain([sample().maker.book(), empty()]) {
        for growth in [
            Growth::name("a name"),
            Growth::term([kind::BOOLEAN, 1, 0, 0, 0, 0, 0], [&[], &[]]),
            Growth::trace_point(0, "there"),
        ] {
            let grown = accepted(&book, &growth);
            let [old, new] = [&book, &grown].map(|bytes| Book::new(bytes).expect("a table"));
            for section in Section::ALL {
                let [from, to] = [old, new].map(|book| book.offset(section) as usize);
                let size = old.count(section) as usize * section.record_size();
                assert_eq!(book[from..from + size], grown[to..to + size]);
            }
            assert!(check(&grown).is_ok());
        }
    }
}

#[test]
fn entries_that_no_range_reaches_stay_whatever_they_hold() {
    let mut m = with_terms(1);
    m.name("not");
    m.lists = vec![u32::MAX, 77];
    let not = Growth::Term([kind::BUILT_IN, 0, 0, 0, 0, 0, 0], [bytes(&[0]), vec![]]);
    let m = records(&accepted(&m.book(), &not));
    assert_eq!(m.lists, [u32::MAX, 77, 0]);
    assert_eq!(m.terms[1], [kind::BUILT_IN, 0, 2, 1, 0, 0, 0]);
}
