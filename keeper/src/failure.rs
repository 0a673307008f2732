//! What ends the keeper before its input ends, and what it says.

use std::fmt::Display;
use std::io::{self, ErrorKind, Write};
use std::path::Path;

/// What failed, what to do, and the exit status.
pub struct Failure {
    pub status: u8,
    pub what: String,
    pub remedy: String,
}

/// A new start gets over it, once what the message asks for is done.
pub fn start_again(what: impl Display, remedy: &str) -> Failure {
    failure(1, what, remedy)
}

pub fn wrong_arguments(remedy: &str) -> Failure {
    failure(2, "wrong arguments", remedy)
}

/// Somebody has to look first: a new start would not help, or not be safe.
pub fn look_first(what: impl Display, remedy: &str) -> Failure {
    failure(3, what, remedy)
}

fn failure(status: u8, what: impl Display, remedy: &str) -> Failure {
    let (what, remedy) = (what.to_string(), remedy.to_string());
    Failure {
        status,
        what,
        remedy,
    }
}

/// What came of a file or a folder. Where the disk is full, space is all it needs.
pub fn of_file<T>(path: &Path, result: io::Result<T>) -> Result<T, Failure> {
    result.map_err(|error| {
        let what = format!("{}: {error}", path.display());
        match error.kind() {
            ErrorKind::StorageFull | ErrorKind::QuotaExceeded | ErrorKind::FileTooLarge => {
                start_again(what, "free space on its disk, then start again")
            }
            _ => look_first(what, "look at its disk and its owner, then start again"),
        }
    })
}

/// What came of a flush. Where it failed, what was written may not be on the
/// disk, whatever a reader sees now.
pub fn of_flush(path: &Path, result: io::Result<()>) -> Result<(), Failure> {
    result.map_err(|error| {
        let what = format!("{} cannot be flushed to the disk: {error}", path.display());
        let remedy = "its last lines may be lost: look at the disk before you start again";
        look_first(what, remedy)
    })
}

/// Says something to whoever is on duty. That it cannot be said stops no train.
pub fn tell(text: &str) {
    let _ = writeln!(io::stderr(), "keep: {text}");
}

/// A line of a log as a message shows it.
pub fn shown(line: &[u8]) -> String {
    const MOST: usize = 100;
    let line = line.strip_suffix(b"\n").unwrap_or(line);
    format!("\"{}\"", line[..line.len().min(MOST)].escape_ascii())
}
