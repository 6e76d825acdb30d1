//! The spoilt answers.

use leskofar_reference::attack::splicing::{Chunk, Splicer, Written, WAYS};

const SEEDS: u64 = 4000;
const QUESTIONS: usize = 4;

fn chunk(text: &str, number: usize) -> Chunk {
    Chunk {
        text: text.into(),
        mark: format!("mark-{number}").into_bytes(),
        is_check: true,
        is_answer: true,
    }
}

/// What is written before the mark and behind it, if the mark is there.
fn parts(written: &Written, number: usize) -> Option<(String, String)> {
    let text = String::from_utf8_lossy(&written.bytes).into_owned();
    let (before, behind) = text.split_once(&format!("mark-{number}"))?;
    Some((before.into(), behind.into()))
}

/// `unsat` is never written where the real solver said `sat`, unless
/// something stood there before the question: that a host can find out. Both
/// are met, and every way.
#[test]
fn no_lie_is_perfect() {
    let (mut met, mut spared, mut found_out) = (Vec::new(), 0, 0);
    for seed in 0..SEEDS {
        let mut splicer = Splicer::new(seed);
        let mut is_ahead = false;
        for number in 0..QUESTIONS {
            let is_true = number == 0;
            let written = splicer.write(&chunk(if is_true { "unsat\n" } else { "sat\n" }, number));
            met.extend(written.way);
            spared += usize::from(written.is_spared);
            let Some((before, behind)) = parts(&written, number) else {
                assert!(written.is_last);
                break;
            };
            let lies = !is_true && before.trim() == "unsat";
            assert!(!lies || is_ahead, "seed {seed}");
            found_out += usize::from(lies);
            is_ahead = !behind.trim().is_empty();
        }
    }
    assert!(WAYS.iter().all(|way| met.contains(way)));
    assert!(spared > 0 && found_out > 0, "{spared} and {found_out}");
}

/// Many solvers are honest to the end, and many are not.
#[test]
fn some_are_honest() {
    let is_honest = |seed: &u64| {
        let mut splicer = Splicer::new(*seed);
        (0..QUESTIONS).all(|number| splicer.write(&chunk("sat\n", number)).way.is_none())
    };
    let honest = (0..SEEDS).filter(is_honest).count() as u64;
    assert!(
        honest >= SEEDS / 5 && SEEDS - honest >= SEEDS / 5,
        "{honest}"
    );
}
