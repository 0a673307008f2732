//! Keeps a line. It runs the session program, and has each call on the disk
//! before the program gets it, and each answer before it goes out. After a stop
//! it replays the calls, and goes on where it stopped.
//!
//! README.md, "Running it on a line", is its page. The variable SESSION names
//! the session program; the script `keep` sets it.

mod failure;
mod keep;
mod lines;
mod logs;
mod program;
mod replay;
mod told;

use failure::{tell, wrong_arguments, Failure};
use std::path::{Path, PathBuf};
use std::process::ExitCode;

fn main() -> ExitCode {
    match start() {
        Ok(()) => ExitCode::SUCCESS,
        Err(failure) => {
            tell(&failure.what);
            tell(&failure.remedy);
            ExitCode::from(failure.status)
        }
    }
}

fn start() -> Result<(), Failure> {
    let words: Vec<PathBuf> = std::env::args_os().skip(1).map(PathBuf::from).collect();
    let is_option = |word: &Path| word.as_os_str().as_encoded_bytes().starts_with(b"-");
    match &words[..] {
        [option, folder] if option == Path::new("--check") => replay::check(folder),
        [option, folder] if option == Path::new("--status") => replay::status(folder),
        [folder] if !is_option(folder) && folder != Path::new("") => {
            keep::keep(folder).inspect_err(|_| tell("this keeper answers nothing more"))
        }
        _ => Err(wrong_arguments(
            "give FOLDER, --check FOLDER or --status FOLDER",
        )),
    }
}
