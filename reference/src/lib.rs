//! A second implementation of the line controller, written from the papers
//! alone, and the means to compare the session program and the desk program
//! with it.
//!
//! - `cargo test --release` runs the tests, those of both programs too.
//! - `cargo run --release --bin compare` compares them on generated lists.
//! - `cargo run --release --bin generate SEED NUMBER` writes one of the lists for
//!   the session program, and with `--desk` before the seed one for the desk.
//! - `cargo run --release --bin benchmark` measures the session program, after
//!   `cargo build --release`.
//!
//! The desk answers the session's calls and previews of them. Here a preview
//! makes its call on a copy of the table, and reads the record there.
//!
//! `wrong/` has wrong versions of the rules, as edits of their sources. The
//! tests see that the lists tell each from the right one: those for the session
//! program, or those for the desk, where the edit says so.
//!
//! The session program is `../target/bin/session`, or the one that the variable
//! SESSION names; the desk program is `../target/bin/desk`, or the one that DESK
//! names.

pub mod actions;
pub mod bench;
pub mod brake;
pub mod call;
pub mod call_backs;
pub mod callers;
pub mod claim;
pub mod compare;
pub mod compare_desk;
pub mod convoy;
pub mod desk;
pub mod feed;
pub mod generate;
pub mod kinds;
pub mod levels;
pub mod line;
pub mod motion;
pub mod orders;
pub mod pending;
pub mod previews;
pub mod random;
pub mod ranges;
pub mod rare;
pub mod rights;
pub mod scene;
pub mod session;
pub mod spoil;
pub mod stay;
pub mod train;
pub mod wire;

use std::process::ExitCode;

/// How a test program ends: what went wrong goes to standard error.
pub fn ended(result: Result<(), String>) -> ExitCode {
    match result {
        Ok(()) => ExitCode::SUCCESS,
        Err(message) => {
            eprintln!("{message}");
            ExitCode::FAILURE
        }
    }
}
