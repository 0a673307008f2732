//! A line that is kept: each call on the disk before the program gets it, each
//! answer before it goes out.

use crate::failure::{of_file, start_again, tell, Failure};
use crate::lines::{each, Lines, ANSWER, BLOCK};
use crate::logs::{Folder, Log};
use crate::program::Program;
use crate::replay::{replay, Pair};
use crate::told::Told;
use std::fs::File;
use std::io::{self, ErrorKind, Read, Write};
use std::os::fd::AsFd;
use std::path::Path;
use std::thread;
use std::time::Duration;

/// An end that is not ready is tried again after so long.
const PAUSE: Duration = Duration::from_millis(1);

struct Keeper {
    folder: Folder,
    /// The open pair: calls, answers.
    logs: [Log; 2],
    program: Program,
    told: Told,
    output: File,
}

/// Keeps the line of this folder until the input ends.
pub fn keep(path: &Path) -> Result<(), Failure> {
    let mut input = standard(io::stdin()).map_err(|error| unreadable(&error))?;
    let mut keeper = Keeper::start(path)?;
    let mut lines = Lines::default();
    let mut block = vec![0; BLOCK];
    loop {
        let read = patiently(|| input.read(&mut block));
        let count = read.map_err(|error| unreadable(&error))?;
        if count == 0 {
            keeper.answer(&lines.last())?;
            return keeper.program.end();
        }
        keeper.answer(&lines.whole(&block[..count]))?;
    }
}

impl Keeper {
    /// Goes on where the last run stopped.
    fn start(path: &Path) -> Result<Keeper, Failure> {
        let output = standard(io::stdout()).map_err(|error| unwritable(&error))?;
        let folder = Folder::hold(path)?;
        let logs = folder.logs()?;
        let pair = of_file(path, Pair::open(path))?;
        let mut program = Program::start()?;
        let replayed = replay(path, pair, &mut program)?;
        replayed.lacks_no_answer()?;
        logs.iter().try_for_each(Log::mend)?;
        let mut keeper = Keeper {
            folder,
            logs,
            program,
            told: replayed.told,
            output,
        };
        let owed = replayed.owed.len() / ANSWER;
        if owed > 0 {
            tell(&format!(
                "calls that had no answer at the stop: {owed}; it is given now"
            ));
        }
        keeper.send(&replayed.owed)?;
        Ok(keeper)
    }

    /// Answers whole lines, all together: two flushes, however many they are.
    fn answer(&mut self, calls: &[u8]) -> Result<(), Failure> {
        if calls.is_empty() {
            return Ok(());
        }
        self.logs[0].keep(calls)?;
        let answers = self.program.answers(calls)?;
        for (call, answer) in each(calls).zip(answers.chunks(ANSWER)) {
            self.told.add(call, answer);
        }
        self.send(&answers)
    }

    fn send(&mut self, answers: &[u8]) -> Result<(), Failure> {
        self.logs[1].keep(answers)?;
        write_all(&mut self.output, answers).map_err(|error| unwritable(&error))?;
        if self.told.is_as_opened() {
            self.begin_anew()?;
        }
        Ok(())
    }

    /// The opening alone leads to the state that all calls so far have led to.
    fn begin_anew(&mut self) -> Result<(), Failure> {
        let (call, answer) = &self.told.opening;
        self.logs = self.folder.begin_anew(call, answer)?;
        self.told = self.told.anew();
        Ok(())
    }
}

/// Standard input or output as a file: the library's own would pass over a
/// descriptor that cannot be written.
fn standard(end: impl AsFd) -> io::Result<File> {
    Ok(File::from(end.as_fd().try_clone_to_owned()?))
}

/// Tries again where a call was interrupted, or an end does not block and is not
/// ready.
fn patiently<T>(mut attempt: impl FnMut() -> io::Result<T>) -> io::Result<T> {
    loop {
        match attempt() {
            Err(error) if error.kind() == ErrorKind::WouldBlock => thread::sleep(PAUSE),
            Err(error) if error.kind() == ErrorKind::Interrupted => {}
            result => return result,
        }
    }
}

fn write_all(output: &mut File, mut bytes: &[u8]) -> io::Result<()> {
    while !bytes.is_empty() {
        match patiently(|| output.write(bytes))? {
            0 => return Err(ErrorKind::WriteZero.into()),
            count => bytes = &bytes[count..],
        }
    }
    Ok(())
}

fn unreadable(error: &io::Error) -> Failure {
    let what = format!("standard input cannot be read: {error}");
    start_again(what, "see to who sends the calls, then start again")
}

fn unwritable(error: &io::Error) -> Failure {
    let what = format!("standard output cannot be written: {error}");
    let remedy =
        "the last answers are in answers.log alone; see to who takes them, then start again";
    start_again(what, remedy)
}
