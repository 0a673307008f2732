//! Runs the program under test and compares it with the second implementation.

use crate::call::{Code, Refusal};
use crate::callers::TurnedAway;
use crate::claim::{self, Penalties, Reached};
use crate::orders::Orders;
use crate::pending::Pendings;
use crate::session;
use crate::spoil::long_runs;
use crate::wire::{lines, read_answer, read_message, whole_line};
use std::io::{Read, Write};
use std::path::{Path, PathBuf};
use std::process::{Command, Stdio};
use std::sync::mpsc::{self, RecvTimeoutError};
use std::thread;
use std::time::Duration;

/// Answer numbers, acceptance among them.
pub const ANSWERS: usize = 1 + Refusal::ALL.len();
/// Call codes, and 0 for unreadable lines.
pub const CODES: usize = 1 + Code::ALL.len();

/// A program that takes longer for one list is stopped, and so fails.
const PATIENCE: Duration = Duration::from_secs(60);

/// The session program under test: the variable SESSION, or the built program.
pub fn program() -> PathBuf {
    named_or_built("SESSION", "session")
}

/// The desk program under test: the variable DESK, or the built program.
pub fn desk_program() -> PathBuf {
    named_or_built("DESK", "desk")
}

fn named_or_built(variable: &str, name: &str) -> PathBuf {
    if let Some(path) = std::env::var_os(variable) {
        return PathBuf::from(path);
    }
    let built = concat!(env!("CARGO_MANIFEST_DIR"), "/../target/bin");
    Path::new(built).join(name)
}

/// An error that says what to do where the program is missing.
pub fn must_exist(program: &Path) -> Result<(), String> {
    if program.is_file() {
        return Ok(());
    }
    Err(format!(
        "{} is missing: build the session and the desk program first, or name them with SESSION and DESK",
        program.display()
    ))
}

/// The whole output of a program for a whole input.
pub fn run(program: &Path, input: &[u8]) -> Result<Vec<u8>, String> {
    must_exist(program)?;
    run_command(&mut Command::new(program), input)
}

/// The same of a command, which may have variables of its own.
pub fn run_command(command: &mut Command, input: &[u8]) -> Result<Vec<u8>, String> {
    let name = command.get_program().to_string_lossy().into_owned();
    let failed = |what: &str, error| format!("{name}: {what}: {error}");
    let mut child = command
        .stdin(Stdio::piped())
        .stdout(Stdio::piped())
        .spawn()
        .map_err(|error| failed("cannot be started", error))?;
    let mut to_child = child.stdin.take().ok_or("no standard input")?;
    let mut from_child = child.stdout.take().ok_or("no standard output")?;
    let mut output = Vec::new();
    let stopped = &mut child;
    let (done, all_read) = mpsc::channel::<()>();
    thread::scope(|scope| {
        // A program that stops early is found by its output and exit status.
        scope.spawn(move || to_child.write_all(input).is_ok());
        scope.spawn(move || {
            let late = all_read.recv_timeout(PATIENCE) == Err(RecvTimeoutError::Timeout);
            late && stopped.kill().is_ok()
        });
        let result = from_child.read_to_end(&mut output);
        drop(done);
        result
    })
    .map_err(|error| failed("its output cannot be read", error))?;
    let status = child.wait().map_err(|error| failed("no status", error))?;
    if !status.success() {
        return Err(format!("{name} ended with {status}"));
    }
    Ok(output)
}

/// Where a program is wrong. Lines are counted from 1.
#[derive(Clone, Debug, PartialEq, Eq)]
pub struct Failure {
    pub line: usize,
    pub why: String,
    pub expected: Vec<u8>,
    pub found: Vec<u8>,
}

/// What the compared lists held.
#[derive(Clone, Debug, Default, PartialEq, Eq)]
pub struct Counts {
    pub lists: u64,
    pub lines: u64,
    /// Lines by call code and answer number.
    pub answers: [[u64; ANSWERS]; CODES],
    pub orders: Orders,
    /// Lists in which a hold lasted for the counted reports.
    pub lists_held: u64,
    /// Lists in which such a hold found the train moving.
    pub lists_held_moving: u64,
    pub penalties: Penalties,
    pub pendings: Pendings,
    pub turned_away: TurnedAway,
    /// Long runs of empty lines.
    pub long_runs: u64,
}

impl Counts {
    pub fn by_number(&self, number: usize) -> u64 {
        self.answers.iter().map(|row| row[number]).sum()
    }

    pub fn by_code(&self, code: Code) -> u64 {
        self.answers[code as usize].iter().sum()
    }

    fn add_list(&mut self, input: &[u8], expected: &[u8], reached: Reached) {
        self.lists += 1;
        self.lists_held += u64::from(reached.holds > 0);
        self.lists_held_moving += u64::from(reached.moving > 0);
        self.penalties.add(reached.penalties);
        self.pendings.add(reached.pendings);
        self.turned_away.add(reached.turned_away);
        self.orders.add(reached.orders);
        self.long_runs += long_runs(input);
        for (line, answer) in lines(input).zip(lines(expected)) {
            let message = whole_line(line).and_then(read_message);
            let call = message.map(|message| message.call);
            let Some(answer) = whole_line(answer).and_then(read_answer) else {
                continue;
            };
            let code = call.map_or(0, |call| call.code() as usize);
            self.lines += 1;
            self.answers[code][answer.number as usize] += 1;
        }
    }
}

/// Compares an output with the second implementation and checks the claim.
pub fn check(input: &[u8], output: &[u8], counts: &mut Counts) -> Result<(), Failure> {
    let expected = session::run(input);
    if let Some(failure) = first_difference(&expected, output) {
        return Err(failure);
    }
    match claim::check(input, output) {
        Ok(reached) => counts.add_list(input, &expected, reached),
        Err(broken) => return Err(broken_claim(broken, &expected, output)),
    }
    Ok(())
}

/// The first line in which two outputs differ.
pub fn first_difference(expected: &[u8], found: &[u8]) -> Option<Failure> {
    if expected == found {
        return None;
    }
    let same = lines(expected)
        .zip(lines(found))
        .take_while(|(one, other)| one == other)
        .count();
    Some(failure(same, "the answers differ", expected, found))
}

fn broken_claim(broken: claim::Broken, expected: &[u8], found: &[u8]) -> Failure {
    let why = format!("calls and answers alone show: {}", broken.why);
    failure(broken.line - 1, &why, expected, found)
}

fn failure(index: usize, why: &str, expected: &[u8], found: &[u8]) -> Failure {
    let line = |text| lines(text).nth(index).unwrap_or_default().to_vec();
    Failure {
        line: index + 1,
        why: why.to_string(),
        expected: line(expected),
        found: line(found),
    }
}
