//! The session program: calls in, answers out.

use crate::failure::{look_first, shown, start_again, Failure};
use crate::lines::{count, each, ANSWER};
use std::io::{self, Read, Write};
use std::process::{Child, ChildStdin, ChildStdout, Command, Stdio};
use std::thread;

/// Every pipe has room for so many bytes.
const ROOM: usize = 4096;

pub struct Program {
    child: Child,
    input: ChildStdin,
    output: ChildStdout,
}

impl Program {
    pub fn start() -> Result<Program, Failure> {
        let path = std::env::var_os("SESSION").unwrap_or_default();
        let mut command = Command::new(&path);
        let command = command.stdin(Stdio::piped()).stdout(Stdio::piped());
        let mut child = command.spawn().map_err(|error| {
            let what = format!("the session program {}: {error}", path.display());
            look_first(what, "build it with ./session --build")
        })?;
        let input = child.stdin.take().expect("it is piped");
        let output = child.stdout.take().expect("it is piped");
        Ok(Program {
            child,
            input,
            output,
        })
    }

    /// The answers to whole lines.
    pub fn answers(&mut self, calls: &[u8]) -> Result<Vec<u8>, Failure> {
        let mut answers = vec![0; count(calls) * ANSWER];
        let asked = self.ask(calls, &mut answers);
        asked.map_err(|_| self.ended())?;
        if let Some(line) = each(&answers).find(|line| line.len() != ANSWER) {
            let what = format!("the session program wrote {}, no answer", shown(line));
            let remedy = "look whether it is the right program";
            return Err(look_first(what, remedy));
        }
        Ok(answers)
    }

    /// Many calls are written while answers are read, so that neither program
    /// waits for the other.
    fn ask(&mut self, calls: &[u8], answers: &mut [u8]) -> io::Result<()> {
        let (input, output) = (&mut self.input, &mut self.output);
        if calls.len() <= ROOM {
            input.write_all(calls)?;
            return output.read_exact(answers);
        }
        thread::scope(|scope| {
            // Where the program ends, this fails too.
            scope.spawn(|| input.write_all(calls).is_ok());
            output.read_exact(answers)
        })
    }

    /// Its input ends, so it ends too.
    pub fn end(mut self) -> Result<(), Failure> {
        drop((self.input, self.output));
        match self.child.wait() {
            Ok(status) if status.success() => Ok(()),
            status => Err(early(status)),
        }
    }

    /// It ended, though its input did not. Where it did so by itself the kill
    /// does nothing, and its status says how.
    fn ended(&mut self) -> Failure {
        let _ = self.child.kill();
        early(self.child.wait())
    }
}

fn early(status: io::Result<std::process::ExitStatus>) -> Failure {
    let how = status.map_or_else(|error| error.to_string(), |status| status.to_string());
    let what = format!("the session program ended by itself: {how}");
    let remedy = "start again: calls that have no answer yet are answered then";
    start_again(what, remedy)
}
