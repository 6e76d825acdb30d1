//! Where the tool writes: never over what it reads, and whole or not at all.

use crate::samples::path;
use crate::tool::{run, string, BAD_INPUT, WRONG_USAGE};
use std::ffi::OsStr;
use std::fs::{self, File};
use std::io::{Read, Write};
use std::os::unix::fs::{symlink, FileTypeExt, MetadataExt, PermissionsExt};
use std::path::{Path, PathBuf};
use std::process::{Command, Output};

const OLD: &[u8] = b"the old file";
const ROOM_OF_A_PIPE: usize = 1 << 16;

/// A new directory of a test's own.
fn directory(name: &str) -> PathBuf {
    let directory = Path::new(env!("CARGO_TARGET_TMPDIR"))
        .join("out_files")
        .join(name);
    if directory.exists() {
        fs::remove_dir_all(&directory).expect("an earlier run's can be removed");
    }
    fs::create_dir_all(&directory).expect("it can be made");
    directory
}

fn names_in(directory: &Path) -> Vec<String> {
    let entries = fs::read_dir(directory).expect("it is there");
    let name = |entry: fs::DirEntry| entry.file_name().to_string_lossy().into_owned();
    let mut names: Vec<String> = entries
        .map(|entry| name(entry.expect("an entry")))
        .collect();
    names.sort();
    names
}

fn write_book(out: &Path) -> Output {
    let plan = path("siblings");
    run(&[
        OsStr::new("book"),
        plan.as_ref(),
        "-o".as_ref(),
        out.as_ref(),
    ])
}

fn assert_written(out: &Path) {
    let answer = write_book(out);
    assert_eq!(answer.status.code(), Some(0), "{}", string(&answer.stderr));
    assert_eq!(fs::read(out).expect("the book"), book());
}

/// The sample's book, by standard output.
fn book() -> Vec<u8> {
    let plan = path("siblings");
    run(&[OsStr::new("book"), plan.as_ref()]).stdout
}

fn mode(path: &Path) -> u32 {
    fs::metadata(path)
        .expect("it is there")
        .permissions()
        .mode()
        & 0o7777
}

/// By the same path, another path, a link of either sort, and through a
/// linked directory.
#[test]
fn the_file_that_is_read_is_not_written() {
    let directory = directory("read");
    let contents = [
        ("book", fs::read(path("siblings")).expect("the sample")),
        ("text", book()),
    ];
    for (command, content) in contents {
        let file = directory.join(command);
        fs::write(&file, &content).expect("it can be written");
        let [hard, soft, twice] = ["hard", "soft", "twice"].map(|link| directory.join(link));
        let linked = directory.join("linked");
        fs::hard_link(&file, &hard).expect("a link");
        symlink(command, &soft).expect("a link");
        symlink(&soft, &twice).expect("a link");
        symlink(".", &linked).expect("a link");
        let dotted = directory.join(".").join("..").join("read").join(command);
        let before = names_in(&directory);
        let inode = fs::metadata(&file).expect("it is there").ino();
        for out in [&file, &hard, &soft, &twice, &dotted, &linked.join(command)] {
            for (from, to) in [(&file, out), (out, &file)] {
                let call = [
                    OsStr::new(command),
                    from.as_ref(),
                    "-o".as_ref(),
                    to.as_ref(),
                ];
                let answer = run(&call);
                assert_eq!(answer.status.code(), WRONG_USAGE, "{call:?}");
                let why = ": this is the file that is read; -o needs another\n";
                assert_eq!(string(&answer.stderr), format!("{}{why}", to.display()));
                assert_eq!(answer.stdout, b"");
                assert_eq!(fs::read(&file).expect("it is there"), content);
                assert_eq!(fs::metadata(&file).expect("it is there").ino(), inode);
                assert_eq!(names_in(&directory), before);
            }
        }
        for link in [hard, soft, twice, linked, file] {
            fs::remove_file(link).expect("it can be removed");
        }
    }
}

/// A copy is another file, even if it has the same name elsewhere.
#[test]
fn a_copy_may_be_written() {
    let directory = directory("copy");
    let out = directory.join("siblings.plan");
    fs::copy(path("siblings"), &out).expect("a copy");
    assert_written(&out);
    assert_eq!(names_in(&directory), ["siblings.plan"]);
}

/// The old file is replaced at once, so that whoever reads it reads it whole;
/// its permissions stay.
#[test]
fn an_old_file_is_replaced() {
    let directory = directory("replaced");
    let out = directory.join("out");
    for permissions in [0o600, 0o666, 0o640, 0o755] {
        fs::write(&out, OLD).expect("it can be written");
        fs::set_permissions(&out, PermissionsExt::from_mode(permissions)).expect("they can be set");
        let reader = directory.join("reader");
        fs::hard_link(&out, &reader).expect("a link");
        assert_written(&out);
        assert_eq!(mode(&out), permissions);
        assert_eq!(fs::read(&reader).expect("the old file"), OLD);
        fs::remove_file(&reader).expect("it can be removed");
        assert_eq!(names_in(&directory), ["out"]);
    }
}

#[test]
fn a_new_file_has_usual_permissions() {
    let directory = directory("new");
    let [usual, out] = ["usual", "out"].map(|name| directory.join(name));
    fs::write(&usual, OLD).expect("it can be written");
    assert_written(&out);
    assert_eq!(mode(&out), mode(&usual));
    assert_eq!(names_in(&directory), ["out", "usual"]);
    // As long as a name can be.
    assert_written(&directory.join("n".repeat(255)));
    // By a name alone, in the present directory.
    let call = [
        OsStr::new("book"),
        &path("siblings").into_os_string(),
        "-o".as_ref(),
        "bare".as_ref(),
    ];
    let mut tool = Command::new(env!("CARGO_BIN_EXE_plan"));
    let status = tool.args(call).current_dir(&directory).status();
    assert!(status.expect("the tool runs").success());
    assert_eq!(fs::read(directory.join("bare")).expect("the book"), book());
}

/// The link stays, and what it leads to is replaced, or made.
#[test]
fn a_link_stays() {
    let directory = directory("links");
    let elsewhere = directory.join("elsewhere");
    fs::create_dir(&elsewhere).expect("it can be made");
    let [link, second] = ["link", "second"].map(|name| directory.join(name));
    symlink("second", &link).expect("a link");
    symlink("elsewhere/file", &second).expect("a link");
    for _ in ["made", "replaced"] {
        assert_written(&link);
        for link in [&link, &second] {
            assert!(fs::symlink_metadata(link)
                .expect("it is there")
                .is_symlink());
        }
        assert_eq!(fs::read(elsewhere.join("file")).expect("the book"), book());
        assert_eq!(names_in(&elsewhere), ["file"]);
        assert_eq!(names_in(&directory), ["elsewhere", "link", "second"]);
    }
    let circle = directory.join("circle");
    symlink("circle", &circle).expect("a link");
    assert_eq!(write_book(&circle).status.code(), WRONG_USAGE);
    assert!(fs::symlink_metadata(&circle)
        .expect("it is there")
        .is_symlink());
}

/// Pipes and directories. No device of the machine is tried: a tool that
/// replaced it, run by root, would take it from everybody. What is tried is
/// this test's own, or can't be replaced.
#[test]
fn no_regular_files() {
    let directory = directory("others");
    assert_eq!(write_book(&directory).status.code(), WRONG_USAGE);
    let to_stdout = write_book(Path::new("/proc/self/fd/1"));
    assert_eq!(to_stdout.status.code(), Some(0));
    assert_eq!(to_stdout.stdout, book());

    let pipe = directory.join("pipe");
    let made = Command::new("mkfifo").arg(&pipe).status();
    assert!(made.expect("mkfifo runs").success());
    // With the test's own end open, the tool need not wait for a reader.
    let mut end = File::options()
        .read(true)
        .write(true)
        .open(&pipe)
        .expect("it opens");
    assert_eq!(write_book(&pipe).status.code(), Some(0));
    let is_pipe = |path: &Path| {
        fs::metadata(path)
            .expect("it is there")
            .file_type()
            .is_fifo()
    };
    assert!(is_pipe(&pipe));
    // With a byte of the test's own behind it, there is always one to read.
    end.write_all(b".").expect("it has room");
    let mut written = vec![0; ROOM_OF_A_PIPE];
    let length = end.read(&mut written).expect("it reads");
    assert_eq!(written[..length], [&book()[..], b"."].concat());
    assert_eq!(names_in(&directory), ["pipe"]);
}

/// Where nothing can be written, the old file is as it was, and nothing is
/// left beside it.
#[test]
fn a_failure_leaves_the_old_file() {
    const WITHOUT_ROOM: &str = "trap '' XFSZ; ulimit -f 0; exec \"$@\"";
    let directory = directory("failure");
    let out = directory.join("out");
    for is_old in [true, false] {
        if is_old {
            fs::write(&out, OLD).expect("it can be written");
        } else {
            fs::remove_file(&out).expect("it can be removed");
        }
        let before = names_in(&directory);
        let mut shell = Command::new("sh");
        shell.args(["-c", WITHOUT_ROOM, "sh", env!("CARGO_BIN_EXE_plan"), "book"]);
        let answer = shell.arg(path("siblings")).arg("-o").arg(&out).output();
        let answer = answer.expect("the tool runs");
        assert_eq!(answer.status.code(), WRONG_USAGE);
        let said = string(&answer.stderr);
        assert!(said.starts_with(&format!("{}: ", out.display())), "{said}");
        assert_eq!(names_in(&directory), before);
        if is_old {
            assert_eq!(fs::read(&out).expect("the old file"), OLD);
        }
    }
    // A directory that is not there.
    let nowhere = directory.join("no").join("out");
    assert_eq!(write_book(&nowhere).status.code(), WRONG_USAGE);
    assert_eq!(names_in(&directory), [""; 0]);
}

/// A bad plan leaves the old file too.
#[test]
fn a_bad_plan_leaves_the_old_file() {
    let directory = directory("bad");
    let [plan, out] = ["plan", "out"].map(|name| directory.join(name));
    fs::write(&out, OLD).expect("it can be written");
    for text in ["(node n root)", "(node n root 7)", "(constant |-5| Int)"] {
        fs::write(&plan, text).expect("it can be written");
        let answer = run(&[
            OsStr::new("book"),
            plan.as_ref(),
            "-o".as_ref(),
            out.as_ref(),
        ]);
        assert_eq!(answer.status.code(), BAD_INPUT, "{text}");
        assert_eq!(fs::read(&out).expect("the old file"), OLD);
        assert_eq!(names_in(&directory), ["out", "plan"]);
    }
}
