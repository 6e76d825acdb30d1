//! A solver that spoils a real one's answers: z3 stands behind it, and what
//! z3 writes up to each echoed mark is cut, doubled, held back or mixed with
//! other answers, at random.
#![deny(warnings)]

use leskofar_reference::attack::splicing::{Chunk, Splicer};
use std::env;
use std::fs::{self, File, OpenOptions};
use std::io::{self, BufRead, BufReader, Write};
use std::os::fd::AsFd;
use std::path::Path;
use std::process::{id, Child, ChildStdin, ChildStdout, Command, ExitCode, Stdio};
use std::sync::mpsc::{channel, Receiver};
use std::thread;
use std::time::Duration;

const HELP: &str = "\
usage: splices SEED TALLY

Reads SMT-LIB from standard input, hands it to z3, and writes z3's answers to
standard output, spoilt at random by SEED and by how many solvers TALLY has
already. Adds lines to the file TALLY: `solver`, and for each answer that is
spoilt its way, or `spared` where the spoilt one would be a lie that nobody
can find out. The environment's SOLVER_PIDS is a file for process numbers.
";
const WRONG_USAGE: u8 = 2;
const FAILED: u8 = 1;

/// How long the host may be silent behind a spoilt answer. It may wait for a
/// mark that it will never see, and is not to wait until its time is over.
const PATIENCE: Duration = Duration::from_millis(60);

const A_SOLVER: &str = "solver";
const ECHO_BEGIN: &[u8] = b"(echo \"";
const ECHO_END: &[u8] = b"\")";

/// Between the seeds of a run's first solvers.
const SOLVERS: u64 = 1000;

fn main() -> ExitCode {
    let arguments: Vec<String> = env::args().skip(1).collect();
    let parsed = match &arguments[..] {
        [seed, tally] => seed.parse().ok().map(|seed: u64| (seed, tally)),
        _ => None,
    };
    let Some((seed, tally)) = parsed else {
        eprint!("{HELP}");
        return ExitCode::from(WRONG_USAGE);
    };
    match run(seed, Path::new(tally)) {
        Ok(()) => ExitCode::SUCCESS,
        Err(error) => {
            eprintln!("splices: {error}");
            ExitCode::from(FAILED)
        }
    }
}

fn run(seed: u64, tally: &Path) -> io::Result<()> {
    let before = fs::read_to_string(tally).unwrap_or_default();
    let solvers = before.lines().filter(|line| *line == A_SOLVER).count() as u64;
    let tally = OpenOptions::new().create(true).append(true).open(tally)?;
    let mut z3 = Command::new("z3")
        .args(["-smt2", "-in"])
        .stdin(Stdio::piped())
        .stdout(Stdio::piped())
        .spawn()?;
    let talked = note_processes(&z3)
        .and_then(|()| Talk::new(&mut z3, tally, seed.wrapping_mul(SOLVERS) + solvers))
        .and_then(|mut talk| talk.serve());
    // z3 goes with this process. It may have ended by itself.
    let _ = z3.kill();
    z3.wait()?;
    talked
}

/// For the tests, which look whether somebody is left.
fn note_processes(z3: &Child) -> io::Result<()> {
    let Some(path) = env::var_os("SOLVER_PIDS") else {
        return Ok(());
    };
    let mut file = OpenOptions::new().create(true).append(true).open(path)?;
    file.write_all(format!("{}\n{}\n", id(), z3.id()).as_bytes())
}

struct Talk {
    input: Receiver<Vec<u8>>,
    /// Not buffered: what is spoilt goes out at once.
    output: File,
    to_z3: ChildStdin,
    from_z3: BufReader<ChildStdout>,
    tally: File,
    splicer: Splicer,
    is_spoilt: bool,
}

impl Talk {
    fn new(z3: &mut Child, mut tally: File, seed: u64) -> io::Result<Talk> {
        let missing = || io::Error::other("z3 has no pipe");
        tally.write_all(format!("{A_SOLVER}\n").as_bytes())?;
        Ok(Talk {
            input: lines_of_input(),
            output: File::from(io::stdout().as_fd().try_clone_to_owned()?),
            to_z3: z3.stdin.take().ok_or_else(missing)?,
            from_z3: BufReader::new(z3.stdout.take().ok_or_else(missing)?),
            tally,
            splicer: Splicer::new(seed),
            is_spoilt: false,
        })
    }

    /// Until the input ends, or nobody will ask for more.
    fn serve(&mut self) -> io::Result<()> {
        let (mut is_check, mut is_answer) = (false, false);
        while let Some(line) = self.line() {
            self.to_z3.write_all(&line)?;
            let command = line.trim_ascii();
            is_check |= command == b"(check-sat)";
            is_answer |= is_check || command == b"(get-model)";
            let Some(mark) = echoed(command) else {
                continue;
            };
            let Some(text) = self.z3_up_to(mark)? else {
                return Ok(());
            };
            let chunk = Chunk {
                text,
                mark: mark.to_vec(),
                is_check,
                is_answer,
            };
            if !self.write(&chunk)? {
                return Ok(());
            }
            (is_check, is_answer) = (false, false);
        }
        Ok(())
    }

    /// The next line of the input, if it comes.
    fn line(&self) -> Option<Vec<u8>> {
        if self.is_spoilt {
            self.input.recv_timeout(PATIENCE).ok()
        } else {
            self.input.recv().ok()
        }
    }

    /// What z3 writes up to the mark; nothing if it ends before.
    fn z3_up_to(&mut self, mark: &[u8]) -> io::Result<Option<Vec<u8>>> {
        self.to_z3.flush()?;
        let mut text = Vec::new();
        loop {
            let begin = text.len();
            if self.from_z3.read_until(b'\n', &mut text)? == 0 {
                return Ok(None);
            }
            if text[begin..].trim_ascii() == mark {
                text.truncate(begin);
                return Ok(Some(text));
            }
        }
    }

    /// False where nobody will ask for more.
    fn write(&mut self, chunk: &Chunk) -> io::Result<bool> {
        let written = self.splicer.write(chunk);
        let note = match (written.is_spared, written.way) {
            (true, _) => "spared\n".into(),
            (false, Some(way)) => format!("{way:?}\n"),
            (false, None) => String::new(),
        };
        self.tally.write_all(note.as_bytes())?;
        self.is_spoilt |= written.way.is_some();
        self.output.write_all(&written.bytes)?;
        Ok(!written.is_last)
    }
}

/// The mark that a command has echoed.
fn echoed(command: &[u8]) -> Option<&[u8]> {
    command.strip_prefix(ECHO_BEGIN)?.strip_suffix(ECHO_END)
}

/// Standard input, read beside, so that it can be waited for.
fn lines_of_input() -> Receiver<Vec<u8>> {
    let (sender, receiver) = channel();
    thread::spawn(move || {
        let mut input = io::stdin().lock();
        loop {
            let mut line = Vec::new();
            let is_more = input
                .read_until(b'\n', &mut line)
                .is_ok_and(|length| length > 0);
            if !is_more || sender.send(line).is_err() {
                return;
            }
        }
    });
    receiver
}
