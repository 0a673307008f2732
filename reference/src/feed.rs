//! Programs that answer lines, and the input that comes to them in pieces.

use crate::wire::MESSAGE_BYTES;
use std::io::{self, BufRead, Read, Write};
use std::process::ExitCode;

/// What is read at once, at most.
const BLOCK: usize = 1 << 16;

/// Answers one line after another.
pub trait Program {
    /// Adds the answer to a line, given without its line feed. None is a last
    /// line that lacks it.
    fn answer_line(&mut self, line: Option<&[u8]>, out: &mut Vec<u8>);
}

/// A program that takes its input in pieces.
#[derive(Default)]
pub struct Fed<P> {
    program: P,
    /// The start of a line whose line feed has not come yet, at most one byte
    /// more than a readable line has: what is longer is unreadable anyway.
    part: Vec<u8>,
}

/// The whole output of a program for a whole input.
pub fn run<P: Program + Default>(input: &[u8]) -> Vec<u8> {
    let mut fed = Fed::<P>::default();
    let mut out = Vec::new();
    fed.feed(input, &mut out);
    fed.finish(&mut out);
    out
}

/// Runs a program from standard input to standard output.
pub fn serve<P: Program + Default>() -> ExitCode {
    match pass_on(Fed::<P>::default()) {
        Ok(()) => ExitCode::SUCCESS,
        Err(_) => ExitCode::FAILURE,
    }
}

/// Writes the answers to all whole lines read before it waits for more.
fn pass_on<P: Program>(mut fed: Fed<P>) -> io::Result<()> {
    let (mut input, mut output) = (io::stdin().lock(), io::stdout().lock());
    let mut block = vec![0; BLOCK];
    let mut answers = Vec::with_capacity(BLOCK);
    loop {
        let count = match input.read(&mut block) {
            Err(error) if error.kind() == io::ErrorKind::Interrupted => continue,
            result => result?,
        };
        if count == 0 {
            fed.finish(&mut answers);
        } else {
            fed.feed(&block[..count], &mut answers);
        }
        output.write_all(&answers)?;
        output.flush()?;
        if count == 0 {
            return Ok(());
        }
        answers.clear();
    }
}

impl<P: Program> Fed<P> {
    pub fn program(&self) -> &P {
        &self.program
    }

    /// Takes the next bytes and answers every line that ends in them.
    pub fn feed(&mut self, mut bytes: &[u8], out: &mut Vec<u8>) {
        while let Some(end) = line_length(bytes) {
            self.end_line(&bytes[..end], out);
            bytes = &bytes[end + 1..];
        }
        self.keep(bytes);
    }

    /// Answers a last line without its line feed.
    pub fn finish(&mut self, out: &mut Vec<u8>) {
        if !self.part.is_empty() {
            self.program.answer_line(None, out);
        }
    }

    fn end_line(&mut self, text: &[u8], out: &mut Vec<u8>) {
        if self.part.is_empty() {
            return self.program.answer_line(Some(text), out);
        }
        self.keep(text);
        self.program.answer_line(Some(&self.part), out);
        self.part.clear();
    }

    fn keep(&mut self, bytes: &[u8]) {
        let room = MESSAGE_BYTES + 1 - self.part.len();
        self.part.extend_from_slice(&bytes[..bytes.len().min(room)]);
    }
}

/// Bytes of the first line, if its line feed is there.
fn line_length(bytes: &[u8]) -> Option<usize> {
    let mut rest = bytes;
    // A search for many bytes at once; a slice gives no error.
    rest.skip_until(b'\n').ok()?;
    let taken = bytes.len() - rest.len();
    bytes[..taken].ends_with(b"\n").then(|| taken - 1)
}
