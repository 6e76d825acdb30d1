//! Program script, as `rt ci` and `rt run` leave it built, against the
//! reference: what it prints for its standard input.

use crate::made_sessions::own_axiom;
use crate::made_terms::nests;
use crate::sane::Reading;
use crate::strict::{read_whole, reading_of};
use crate::tally::{Met, Tally};
use leskofar_reference::book::{number_at, INT, NUMBER_SIZE};
use leskofar_reference::damage::damaged;
use leskofar_reference::maker::{sample, Maker};
use leskofar_reference::random::{Random, AT_TIMES, HARDLY_EVER, OFTEN, RARELY};
use leskofar_reference::random_books::{any_random_book, Counts};
use leskofar_reference::sane_books::sane_book;
use leskofar_reference::script;
use leskofar_reference::script::{ASK, CALL_SIZE, INPUT_MOST, MOVE, TEXT_SIZE};
use std::io::Write;
use std::process::{Command, Stdio};

const ROOT: &str = concat!(env!("CARGO_MANIFEST_DIR"), "/..");
const PROGRAM: &str = "crates/script/out/script";
/// The stack that the program is given.
const STACK_KIB: usize = 2_048;
const STOPPED: &str = "; stopped";
const REFUSED: &str = "; refused ";
const RANDOM_INPUTS: usize = 10_000;
/// Of books with sane names.
const SANE_INPUTS: usize = 1_000;
const SEED: u64 = 0x7363_7269;
/// The usual sizes of random books, and the most calls on one.
const SIZES: [usize; 5] = [1, 2, 4, 8, 24];
const CALLS: usize = 40;
/// How often a random call is one that stops the program, as `one_in`.
const STOPS: usize = 256;
/// A constant's name, and how often the goal that fills the buffer names it.
const LONG_NAME: usize = 7_200;
const TIMES: usize = 8;
/// How many negative numbers it has besides.
const NEGATIVES: [usize; 2] = [0, 16];
/// What the program prints last of an ask before the reply.
const CHECK: &str = "(check-sat)\n";
/// Beside the refusals' numbers: a stop, and 0 for an output without either.
const STOP: u32 = 100;
/// What random books and calls meet always, and at times: a text that is too long.
const RANDOM: [u32; 10] = [0, 2, 3, 4, 5, 6, 28, 7, 9, STOP];
const AT_TIMES_MET: [u32; 1] = [10];

pub fn input(book: &[u8], calls: &[[u32; 3]]) -> Vec<u8> {
    let mut input = (book.len() as u32).to_le_bytes().to_vec();
    input.extend_from_slice(book);
    input.extend(calls.iter().flatten().flat_map(|n| n.to_le_bytes()));
    input
}

/// The book of an input that is not cut in it.
fn book_of(input: &[u8]) -> Option<&[u8]> {
    let (length, rest) = input.split_at_checked(NUMBER_SIZE)?;
    rest.get(..number_at(length, 0) as usize)
}

fn program(input: &[u8]) -> Result<Vec<u8>, String> {
    let mut child = Command::new("sh")
        .args(["-c", &format!("ulimit -s {STACK_KIB}; exec \"$0\"")])
        .arg(format!("{ROOT}/{PROGRAM}"))
        .stdin(Stdio::piped())
        .stdout(Stdio::piped())
        .spawn()
        .map_err(|error| format!("{PROGRAM}: {error}"))?;
    let mut to = child.stdin.take().expect("piped");
    let bytes = input.to_vec();
    // A longer input may find the program gone.
    let writer = std::thread::spawn(move || to.write_all(&bytes).is_ok());
    let done = child.wait_with_output().map_err(|e| e.to_string())?;
    writer.join().expect("a writer ends");
    if !done.status.success() {
        return Err(format!("script ended with {}", done.status));
    }
    Ok(done.stdout)
}

fn compare(input: &[u8], met: &mut Met) -> Result<Vec<u8>, String> {
    let expected = script(input);
    let written = program(input)?;
    if written != expected {
        let at = written.iter().zip(&expected).take_while(|(a, b)| a == b);
        return Err(format!("another text at byte {} of {input:?}", at.count()));
    }
    if let Some(reading) = book_of(input).and_then(reading_of) {
        read_whole(reading, &written)?;
    }
    let text = String::from_utf8_lossy(&expected);
    let mut quiet = true;
    for line in text.lines() {
        if line == STOPPED {
            met.add(STOP);
            quiet = false;
        } else if let Some(number) = line.strip_prefix(REFUSED) {
            met.add(number.parse().expect("a number"));
            quiet = false;
        }
    }
    if quiet {
        met.add(0);
    }
    Ok(expected)
}

/// A number up to `last`, rarely the one behind it.
fn mostly_to(random: &mut Random, last: usize) -> u32 {
    let behind = usize::from(random.one_in(RARELY));
    random.up_to(last + behind) as u32
}

/// A list of calls, mostly within the book.
fn random_calls(random: &mut Random, maker: &Maker) -> Vec<[u32; 3]> {
    let last_term = maker.terms.len().saturating_sub(1);
    (0..random.up_to(CALLS))
        .map(|_| {
            let node = mostly_to(random, maker.contexts.len());
            let term = mostly_to(random, last_term);
            if random.one_in(STOPS) {
                [random.pick(&[0, MOVE, ASK + 1, u32::MAX]), node, term + 1]
            } else if random.one_in(OFTEN) {
                [MOVE, node, 0]
            } else {
                [ASK, node, term]
            }
        })
        .collect()
}

/// An ask whose text is longer by one for each letter of the operator, with so
/// many negative numbers.
fn long_ask(operator: usize, negatives: usize) -> Vec<u8> {
    let mut m = Maker::default();
    let long = m.constant(&"x".repeat(LONG_NAME), INT);
    let mut args: Vec<u32> = (0..TIMES).map(|_| m.id(long)).collect();
    args.extend((0..negatives).map(|_| m.integer(i64::MIN)));
    let goal = m.built_in(&"y".repeat(operator), &args);
    input(
        &m.book(),
        &[[ASK, 0, goal], [MOVE, 0, 0], [ASK, 0, args[0]]],
    )
}

pub fn run(tally: &mut Tally) {
    tally.group(
        "script, the stored input is the sample and refusals",
        || {
            let mut met = Met::default();
            let read = |name: &str| {
                std::fs::read(format!("{ROOT}/crates/script/{name}")).map_err(|e| e.to_string())
            };
            let (stdin, stdout) = (read("stdin")?, read("stdout")?);
            let book = sample().maker.book();
            let calls = [[MOVE, 2, 0], [MOVE, 3, 0], [ASK, 3, sample().goal]];
            if !stdin.starts_with(&input(&book, &calls)) {
                return Err("crates/script/stdin is not the sample".into());
            }
            if compare(&stdin, &mut met)? != stdout {
                return Err("crates/script/stdout is not the reference's".into());
            }
            // What the program says for itself is a comment.
            read_whole(Reading::Strict, &stdout)?;
            met.all_of(&[7, STOP])
        },
    );
    tally.group("script, inputs cut and at the longest", || {
        let mut met = Met::default();
        let calls = [[MOVE, 2, 0], [ASK, 3, sample().goal], [MOVE, 0, 0]];
        let whole = input(&sample().maker.book(), &calls);
        for length in 0..=whole.len() {
            compare(&whole[..length], &mut met)?;
        }
        for length in [u32::MAX, u32::MAX - 3, INPUT_MOST as u32] {
            let mut input = whole.clone();
            input[..4].copy_from_slice(&length.to_le_bytes());
            compare(&input, &mut met)?;
        }
        for length in INPUT_MOST - CALL_SIZE..=INPUT_MOST + CALL_SIZE {
            for byte in [0, 1] {
                let mut longer = whole.clone();
                longer.resize(length, byte);
                compare(&longer, &mut met)?;
            }
            // A call that writes nothing, to the end.
            let mut longer = input(&sample().maker.book(), &[]);
            longer.extend(
                input(&[], &[[MOVE, 0, 0]])[4..]
                    .iter()
                    .cycle()
                    .take(length - longer.len()),
            );
            compare(&longer, &mut met)?;
        }
        met.all_of(&[0, STOP])
    });
    tally.group("script, texts that fill the buffer", || {
        let mut met = Met::default();
        for negatives in NEGATIVES {
            let size = |operator| {
                let text = script(&long_ask(operator, negatives));
                let text = String::from_utf8_lossy(&text).into_owned();
                text.find(CHECK).map(|at| at + CHECK.len())
            };
            let base = size(1).ok_or("refused")?;
            let filling = TEXT_SIZE - base + 1;
            if size(filling) != Some(TEXT_SIZE) {
                return Err("the buffer is not filled".into());
            }
            for operator in [filling - 1, filling, filling + 1, filling + 2] {
                compare(&long_ask(operator, negatives), &mut met)?;
            }
        }
        met.all_of(&[0, 10])
    });
    tally.group("script, the deepest terms", || {
        let mut met = Met::default();
        let nests = nests().into_iter().map(|(_, maker)| maker);
        for maker in nests.chain([own_axiom()]) {
            let goal = maker.terms.len() as u32 - 1;
            compare(&input(&maker.book(), &[[ASK, 0, goal]]), &mut met)?;
        }
        met.only(&[0])
    });
    let sane_inputs = tally.share(SANE_INPUTS);
    tally.group("script, random books with sane names", || {
        let mut met = Met::default();
        let mut random = Random::new(SEED);
        let mut commands = 0;
        for _ in 0..sane_inputs {
            let maker = sane_book(&mut random);
            let calls = random_calls(&mut random, &maker);
            let text = compare(&input(&maker.book(), &calls), &mut met)?;
            commands += read_whole(Reading::Strict, &text)?;
        }
        if commands == 0 {
            return Err("no command was read strictly".into());
        }
        let said = met.all_of(&[0, 7, STOP])?;
        Ok(format!("{said}, {commands} commands read strictly"))
    });
    let random_inputs = tally.share(RANDOM_INPUTS);
    tally.group("script, random books and calls", || {
        let mut met = Met::default();
        let mut random = Random::new(SEED);
        for _ in 0..random_inputs {
            let counts = if random.one_in(HARDLY_EVER) {
                Counts::limits()
            } else {
                let size = random.pick(&SIZES);
                Counts::random(&mut random, size)
            };
            let maker = any_random_book(&mut random, counts);
            let book = if random.one_in(AT_TIMES) {
                damaged(&mut random, &maker)
            } else {
                maker.book()
            };
            let mut bytes = input(&book, &random_calls(&mut random, &maker));
            if random.one_in(RARELY) {
                bytes.truncate(random.up_to(bytes.len()));
            }
            compare(&bytes, &mut met)?;
        }
        met.only_or(&RANDOM, &AT_TIMES_MET)
    });
}
