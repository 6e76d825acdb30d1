//! Files that are written whole or not at all.

use std::fs::{self, File, OpenOptions, Permissions};
use std::io::{self, ErrorKind, Write};
use std::os::unix::fs::{MetadataExt, OpenOptionsExt, PermissionsExt};
use std::path::{Path, PathBuf};
use std::process;

/// The permissions of a new file, but for what the user's mask takes away.
const NEW_MODE: u32 = 0o666;
/// How many names are tried for the file beside.
const MOST_TRIES: usize = 100;
/// As many as Linux follows.
const MOST_LINKS: usize = 40;

/// Whether a path leads to the open file, by a link of either sort or not.
pub fn leads_to(path: &Path, file: &File) -> io::Result<bool> {
    let there = match fs::metadata(path) {
        Err(error) if error.kind() == ErrorKind::NotFound => return Ok(false),
        there => there?,
    };
    let here = file.metadata()?;
    Ok((there.dev(), there.ino()) == (here.dev(), here.ino()))
}

/// Writes the bytes beside the file and renames that over it, so that the old
/// file is there until the new one is whole. A link stays, and leads to the
/// new file. What is no regular file, such as a device, is written to.
pub fn write_whole(path: &Path, bytes: &[u8]) -> io::Result<()> {
    match fs::metadata(path) {
        Ok(old) if old.is_file() => {
            // A file that may not be written is not replaced either.
            let _ = open(path)?;
            replace(&fs::canonicalize(path)?, Some(old.permissions()), bytes)
        }
        Ok(_) => open(path)?.write_all(bytes),
        Err(error) if error.kind() == ErrorKind::NotFound => {
            replace(&end_of_links(path)?, None, bytes)
        }
        Err(error) => Err(error),
    }
}

fn open(path: &Path) -> io::Result<File> {
    OpenOptions::new().write(true).open(path)
}

/// Where a link leads whose file is not there yet.
fn end_of_links(path: &Path) -> io::Result<PathBuf> {
    let mut path = path.to_path_buf();
    for _ in 0..MOST_LINKS {
        match fs::read_link(&path) {
            Ok(target) => path = directory(&path).join(target),
            Err(_) => return Ok(path),
        }
    }
    Err(io::Error::other("too many links"))
}

/// An empty path is the present directory too.
fn directory(path: &Path) -> &Path {
    path.parent().unwrap_or(Path::new(""))
}

fn replace(path: &Path, permissions: Option<Permissions>, bytes: &[u8]) -> io::Result<()> {
    let mode = permissions.as_ref().map_or(NEW_MODE, Permissions::mode);
    let (new_path, new) = create_beside(path, mode)?;
    let filled = fill(new, permissions, bytes);
    let done = filled.and_then(|()| fs::rename(&new_path, path));
    if done.is_err() {
        // The first error is told; a second one would not help anybody.
        let _ = fs::remove_file(&new_path);
    }
    done
}

/// A new file of its own, with a short name, since the other one's may be as
/// long as names can be.
fn create_beside(path: &Path, mode: u32) -> io::Result<(PathBuf, File)> {
    let mut options = OpenOptions::new();
    options.write(true).create_new(true).mode(mode);
    for attempt in 0..MOST_TRIES {
        let name = format!(".plan-{}-{attempt}.new", process::id());
        let new_path = directory(path).join(name);
        match options.open(&new_path) {
            Err(error) if error.kind() == ErrorKind::AlreadyExists => {}
            new => return new.map(|new| (new_path, new)),
        }
    }
    Err(ErrorKind::AlreadyExists.into())
}

/// The user's mask may have taken permissions away that the old file had.
fn fill(mut new: File, permissions: Option<Permissions>, bytes: &[u8]) -> io::Result<()> {
    if let Some(permissions) = permissions {
        new.set_permissions(permissions)?;
    }
    new.write_all(bytes)?;
    new.sync_all()
}
