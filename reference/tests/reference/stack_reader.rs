//! The stack reader, and the bounded sink that text is written into.

use leskofar_reference::maker::sample;
use leskofar_reference::sink::Sink;
use leskofar_reference::stack::{expected_levels, Lost, Reader};

fn read(text: &str) -> Result<Vec<Vec<String>>, Lost> {
    let mut reader = Reader::default();
    reader.read(text.as_bytes())?;
    let strings = |level: &Vec<Vec<u8>>| level.iter().map(|line| as_string(line)).collect();
    Ok(reader.levels().iter().map(strings).collect())
}

fn as_string(line: &[u8]) -> String {
    String::from_utf8(line.to_vec()).expect("ASCII")
}

#[test]
fn levels_come_and_go() {
    assert_eq!(read(""), Ok(vec![vec![]]));
    let text = "a\n(push 1)\nb\nb\n(push 1)\nc\n(pop 1)\n(check-sat)\n(get-model)\nd\n";
    let live = vec![
        vec!["a".to_string()],
        vec!["b".into(), "b".into(), "d".into()],
    ];
    assert_eq!(read(text), Ok(live));
}

#[test]
fn only_whole_lines_are_commands() {
    let text = "(push 1) \n(declare-fun (pop 1) () Int)\n\n";
    let live = ["(push 1) ", "(declare-fun (pop 1) () Int)", ""];
    assert_eq!(read(text), Ok(vec![live.map(String::from).to_vec()]));
}

/// The reader knows the two lines that the text has, with no other numeral.
#[test]
fn another_push_or_pop_is_a_line_like_any_other() {
    let others = [
        "(push)",
        "(pop)",
        "(push 0)",
        "(push 2)",
        "(pop 2)",
        "(push 01)",
        "(push  1)",
        "(push 1 )",
        "( push 1)",
        "(PUSH 1)",
    ];
    for other in others {
        let text = format!("(push 1)\n{other}\n");
        assert_eq!(read(&text), Ok(vec![vec![], vec![other.to_string()]]));
    }
}

#[test]
fn the_first_level_is_never_popped() {
    assert_eq!(read("(pop 1)\n"), Err(Lost::PoppedFirst));
    let text = "(push 1)\n(pop 1)\n(pop 1)\n";
    assert_eq!(read(text), Err(Lost::PoppedFirst));
    assert_eq!(read("(push 1)"), Err(Lost::NoLineEnd));
}

#[test]
fn the_samples_levels() {
    let sample = sample();
    let book = sample.maker.book();
    let levels = |node, goal| {
        let levels = expected_levels(&book, node, goal)?;
        let joined = |level: Vec<Vec<u8>>| as_string(&level.join(&b'\n'));
        Some(levels.into_iter().map(joined).collect::<Vec<String>>())
    };
    let strings = |texts: &[&str]| Some(texts.iter().map(|text| text.to_string()).collect());
    let node_1 = "(declare-fun x () Int)\n(assert (< 0 x))";
    let node_3 = "(assert (< x 9))";
    let goal = "(declare-fun f (Int) Int)\n(assert (forall ((z Int)) (= (f z) z)))\n\
                (declare-fun y () Int)";
    let negation = "(assert (not (< 0 (f y))))";
    assert_eq!(levels(0, None), strings(&[""]));
    assert_eq!(levels(3, None), strings(&["", node_1, node_3]));
    assert_eq!(
        levels(3, Some(sample.goal)),
        strings(&["", node_1, node_3, goal, negation])
    );
    assert_eq!(levels(4, None), None);
    assert_eq!(levels(0, Some(u32::MAX)), None);
}

#[test]
fn a_sink_keeps_what_fits_and_counts_all() {
    let mut sink = Sink::new(4);
    sink.write(b"ab");
    sink.spaces(1);
    assert_eq!(sink.text(), Some(&b"ab "[..]));
    sink.write(b"cd");
    assert_eq!((sink.length(), sink.text()), (5, None));
    sink.spaces(u64::MAX);
    sink.spaces(u64::MAX);
    sink.write(b"e");
    assert_eq!(sink.length(), u64::MAX);
    assert_eq!(sink.take(), b"ab c");
}
