//! Growths of books that are nearly full.

use crate::writer_desk::{grown, refusal, Growth};
use crate::writer_refusals::each_call;
use leskofar_reference::book::Section;
use leskofar_reference::filled_books::{filled_up, tiny};
use leskofar_reference::maker::Maker;
use leskofar_reference::refusal::COUNT;

/// A text for which there is no room: 3, whatever its letters and buffers are.
#[test]
fn three_goes_by_exact_counts() {
    let book = Maker::default().book();
    let most = Section::Letters.most();
    assert!(grown(&book, &Growth::Name(vec![b'a'; most])).is_ok());
    for (length, letter) in [(most + 1, b'a'), (most + 1, 0), (1 << 16, 0)] {
        assert_eq!(refusal(&book, &Growth::Name(vec![letter; length])), COUNT);
    }
    let trace = vec![b'a'; most - b"probe%0=".len()];
    assert!(grown(&book, &Growth::TracePoint(0, trace.clone())).is_ok());
    let longer = [&trace[..], b"a"].concat();
    assert_eq!(refusal(&book, &Growth::TracePoint(0, longer)), COUNT);
    // A name that is found does not count, neither as a name nor by letters.
    let mut m = tiny();
    m.letters.resize(most, b'x');
    m.names.resize(Section::Names.most(), [0, 1]);
    let book = m.book();
    assert!(grown(&book, &Growth::extend(0, 0, Some("n"))).is_ok());
    assert_eq!(refusal(&book, &Growth::extend(0, 0, Some("no"))), COUNT);
    assert_eq!(refusal(&book, &Growth::extend(0, 0, Some(""))), COUNT);
    assert_eq!(refusal(&book, &Growth::name("n")), COUNT);
    assert_eq!(refusal(&book, &Growth::name("")), COUNT);
}

/// How many records of `each_call` each section gets, in the tiny book.
fn appended(growth: &Growth) -> Vec<(Section, usize)> {
    let (letters, names) = (Section::Letters, Section::Names);
    let with_terms = |terms| [(Section::Terms, terms), (Section::Lists, 2)];
    let node = (Section::Contexts, 1);
    match growth {
        Growth::Name(_) => vec![(letters, 1), (names, 1)],
        Growth::Constant(_) => vec![(Section::Constants, 1)],
        Growth::Term(..) => vec![(Section::Terms, 1)],
        Growth::Node(_) => vec![node],
        Growth::Extend(..) => vec![(letters, 1), (names, 1), node],
        Growth::Equality(_) => [&[(letters, 1), (names, 1), node][..], &with_terms(2)].concat(),
        Growth::Record(..) | Growth::TracePoint(..) => {
            let is_record = matches!(growth, Growth::Record(..));
            let terms = with_terms(if is_record { 2 } else { 3 });
            let constant = (Section::Constants, 1);
            [&[(letters, 9), (names, 3), constant, node][..], &terms].concat()
        }
    }
}

/// The limit of each section that a call appends to, and one over it.
#[test]
fn every_section_at_its_limit_by_each_call() {
    for growth in each_call() {
        for section in Section::ALL {
            let taken = appended(&growth)
                .into_iter()
                .find_map(|(taken, many)| (taken == section).then_some(many))
                .unwrap_or(0);
            let book = |count: usize| filled_up(tiny(), section, count).book();
            let fits = book(section.most() - taken);
            assert!(grown(&fits, &growth).is_ok(), "{growth:?} {section:?}");
            if taken > 0 {
                let over = book(section.most() - taken + 1);
                assert_eq!(refusal(&over, &growth), COUNT, "{growth:?} {section:?}");
            }
        }
    }
}
