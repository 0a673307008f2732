//! Programs under test while they run, and the manners that each must have:
//! pieces, waiting, long lines, ends that fail.

use reference::compare::{must_exist, run};
use reference::random::Random;
use reference::spoil::READ_BYTES;
use std::fs::{self, File};
use std::io::{ErrorKind, Read, Write};
use std::os::fd::OwnedFd;
use std::os::unix::net::UnixStream;
use std::path::PathBuf;
use std::process::{Child, ChildStdin, ChildStdout, Command, Output, Stdio};
use std::thread;
use std::time::{Duration, Instant};

/// A program that hangs must not hang the tests.
const PATIENCE: Duration = Duration::from_secs(20);

/// A program under test.
pub struct Tested {
    /// What it calls itself where it says why it stops.
    pub name: &'static str,
    pub path: PathBuf,
    /// An opening and an entering, and what it answers to them.
    pub lines: [&'static [u8]; 2],
    pub answers: [String; 2],
    /// What it answers to an unreadable line.
    pub unreadable: String,
}

impl Tested {
    pub fn output_of(&self, input: &[u8]) -> String {
        let output = run(&self.path, input).unwrap_or_else(|message| panic!("{message}"));
        String::from_utf8_lossy(&output).into_owned()
    }

    fn built(&self) -> &PathBuf {
        must_exist(&self.path).unwrap_or_else(|message| panic!("{message}"));
        &self.path
    }

    fn start(&self) -> Running {
        self.start_with(Stdio::piped(), Stdio::inherit())
    }

    fn start_with(&self, output: Stdio, errors: Stdio) -> Running {
        let mut child = Command::new(self.built())
            .stdin(Stdio::piped())
            .stdout(output)
            .stderr(errors)
            .spawn()
            .unwrap_or_else(|error| panic!("{:?} cannot be started: {error}", self.path));
        let (input, output) = (child.stdin.take(), child.stdout.take());
        Running {
            child,
            input,
            output,
            answer_bytes: self.unreadable.len(),
        }
    }

    pub fn answers_whole_lines_before_it_waits(&self) {
        let ([opening, entering], [done, entered]) = (self.lines, &self.answers);
        let mut running = self.start();
        let (half, rest) = entering.split_at(40);
        running.write(&[opening, half].concat());
        assert_eq!(running.answer(), *done);
        running.write(rest);
        assert_eq!(running.answer(), *entered);
        assert_eq!(running.finish(), "");
    }

    pub fn takes_a_line_byte_by_byte(&self) {
        let mut running = self.start();
        for line in self.lines {
            for byte in line {
                running.write(&[*byte]);
                thread::sleep(Duration::from_micros(200));
            }
        }
        for answer in &self.answers {
            assert_eq!(running.answer(), *answer);
        }
        assert_eq!(running.finish(), "");
    }

    /// As many lines as one read can end: their answers are much longer.
    pub fn answers_every_line_feed_of_a_read(&self) {
        let mut running = self.start();
        running.write(&[b'\n'; READ_BYTES]);
        let answers = running.answers(READ_BYTES);
        assert!(answers == self.unreadable.repeat(READ_BYTES), "{answers}");
        assert_eq!(running.finish(), "");
    }

    /// The output is read meanwhile: it is longer than a pipe is.
    pub fn answers_pieces_as_the_whole(&self, input: &[u8], expected: &[u8]) {
        let mut random = Random::new(3);
        let mut running = self.start();
        let mut output = running.output.take().expect("the output is open");
        let reader = thread::spawn(move || {
            let mut answers = Vec::new();
            output.read_to_end(&mut answers).map(|_| answers)
        });
        let mut left = input;
        while !left.is_empty() {
            let size = random.scaled(3000).min(left.len() as u64) as usize;
            let (piece, rest) = left.split_at(size);
            running.write(piece);
            left = rest;
            if random.once_in(4) {
                thread::sleep(Duration::from_micros(300));
            }
        }
        running.input = None;
        assert!(running.ends_in_time(), "it runs on after its input");
        let answers = reader.join().expect("the reader ends").expect("answers");
        assert!(answers == expected, "the answers differ");
    }

    pub fn answers_1_where_the_last_line_feed_is_missing(&self) {
        let ([opening, entering], [done, _]) = (self.lines, &self.answers);
        let tails: [&[u8]; 4] = [b"x", b" ", &entering[..entering.len() - 1], &[b' '; 500]];
        for tail in tails {
            let expected = format!("{done}{}", self.unreadable);
            assert_eq!(self.output_of(&[opening, tail].concat()), expected);
            assert_eq!(self.output_of(tail), self.unreadable);
        }
    }

    pub fn answers_a_very_long_line_once_with_little_memory(&self) {
        const BYTES: usize = 50_000_000;
        const MOST_KILOBYTES: u64 = 8192;
        let ([opening, entering], [done, entered]) = (self.lines, &self.answers);
        let mut running = self.start();
        running.write(opening);
        assert_eq!(running.answer(), *done);
        let block = [b' '; 100_000];
        for _ in 0..BYTES / block.len() {
            running.write(&block);
        }
        running.write(b"\n");
        assert_eq!(running.answer(), self.unreadable);
        let peak = running.peak_memory();
        assert!(peak < MOST_KILOBYTES, "{peak} kB");
        running.write(entering);
        assert_eq!(running.answer(), *entered);
        assert_eq!(running.finish(), "");
    }

    /// The input stays open and full, so only the closed output can end it.
    pub fn ends_when_its_output_is_closed(&self) {
        let mut running = self.start();
        running.output = None;
        let mut input = running.input.take().expect("the input is open");
        let lines = self.lines[1].repeat(1000);
        let writer = thread::spawn(move || loop {
            if let Err(error) = input.write_all(&lines) {
                return error.kind();
            }
        });
        let ended = running.ends_in_time();
        running.stop();
        let error = writer.join().expect("the writer ends");
        assert!(ended, "it runs on though its output is closed");
        assert_eq!(error, ErrorKind::BrokenPipe);
    }

    /// A closed output ends it by a signal, a full one does not. The input stays
    /// open, so it has to stop by itself after the lines that it has.
    pub fn ends_when_its_output_is_full(&self) {
        let full = File::options().write(true).open("/dev/full");
        let full = full.expect("it is there").into();
        let mut running = self.start_with(full, Stdio::null());
        running.write(&self.lines.concat());
        assert!(running.ends_in_time(), "it waits for more");
    }

    /// What it writes and what it says, where a command starts it as `"$1"`.
    fn in_shell(&self, command: &str) -> (String, String) {
        let output = Command::new("bash")
            .args(["-c", command, "bash"])
            .arg(self.built())
            .output();
        texts(output.expect("the command runs"))
    }

    /// What it says where an end of it fails.
    fn stopped(&self, why: &str) -> String {
        format!("{}: {why}; nothing more is answered\n", self.name)
    }

    fn not_read(&self) -> String {
        self.stopped("standard input cannot be read")
    }

    fn not_written(&self) -> String {
        self.stopped("standard output cannot be written")
    }

    pub fn tells_of_a_failed_read(&self) {
        for input in ["< .", "<&-"] {
            let found = self.in_shell(&format!("\"$1\" {input}"));
            assert_eq!(found, (String::new(), self.not_read()), "{input}");
        }
    }

    /// The input has not ended: a line that has begun is not answered.
    pub fn leaves_the_line_before_a_failed_read_unanswered(&self) {
        let ([opening, entering], [done, _]) = (self.lines, &self.answers);
        let (mut here, there) = UnixStream::pair().expect("a pair");
        there.set_nonblocking(true).expect("a flag");
        here.write_all(&[opening, &entering[..40]].concat())
            .expect("there is room");
        let output = Command::new(self.built())
            .stdin(Stdio::from(OwnedFd::from(there)))
            .output();
        let found = texts(output.expect("it ends"));
        assert_eq!(found, (done.clone(), self.not_read()));
    }

    /// Also where it is the answer to a last line without its line feed. It is
    /// told once, however many answers are lost.
    pub fn tells_of_a_failed_write(&self) {
        for input in ["x\\n", "x", "x\\nx\\nx"] {
            for output in ["> /dev/full", ">&-"] {
                let (_, told) = self.in_shell(&format!("printf '{input}' | \"$1\" {output}"));
                assert_eq!(told, self.not_written(), "{input} {output}");
            }
        }
    }
}

/// What was written and what was said.
fn texts(output: Output) -> (String, String) {
    let text = |bytes| String::from_utf8(bytes).expect("text");
    (text(output.stdout), text(output.stderr))
}

/// A running program with both of its ends.
struct Running {
    child: Child,
    input: Option<ChildStdin>,
    output: Option<ChildStdout>,
    /// Of an answer line, with its line feed.
    answer_bytes: usize,
}

impl Running {
    fn write(&mut self, bytes: &[u8]) {
        let input = self.input.as_mut().expect("the input is open");
        input.write_all(bytes).expect("the program reads its input");
    }

    fn answer(&mut self) -> String {
        self.answers(1)
    }

    /// So many answer lines. A program that keeps them back is stopped, so that
    /// the test ends.
    fn answers(&mut self, count: usize) -> String {
        let mut output = self.output.take().expect("the output is open");
        let mut lines = vec![0; count * self.answer_bytes];
        let reader = thread::spawn(move || output.read_exact(&mut lines).map(|()| (output, lines)));
        let begin = Instant::now();
        while !reader.is_finished() && begin.elapsed() < PATIENCE {
            thread::sleep(Duration::from_millis(1));
        }
        if !reader.is_finished() {
            self.stop();
        }
        let read = reader.join().expect("the reader ends");
        let (output, lines) = read.expect("the program answers before it waits for more");
        self.output = Some(output);
        String::from_utf8_lossy(&lines).into_owned()
    }

    /// Closes the input and gives what is left of the output.
    fn finish(mut self) -> String {
        self.input = None;
        let mut rest = String::new();
        let mut output = self.output.take().expect("the output is open");
        output.read_to_string(&mut rest).expect("answers are text");
        let status = self.child.wait().expect("the program ends");
        assert!(status.success(), "{status}");
        rest
    }

    fn ends_in_time(&mut self) -> bool {
        let begin = Instant::now();
        while begin.elapsed() < PATIENCE {
            if self.child.try_wait().expect("a status").is_some() {
                return true;
            }
            thread::sleep(Duration::from_millis(10));
        }
        false
    }

    fn stop(&mut self) {
        // It may have ended by itself.
        let _ = self.child.kill();
        let _ = self.child.wait();
    }

    /// The greatest resident memory so far, in kilobytes.
    fn peak_memory(&self) -> u64 {
        let file = format!("/proc/{}/status", self.child.id());
        let status = fs::read_to_string(file).expect("the program is alive");
        let line = status.lines().find(|line| line.starts_with("VmHWM:"));
        let number = line.and_then(|line| line.split_whitespace().nth(1));
        number.and_then(|n| n.parse().ok()).expect("a VmHWM line")
    }
}

impl Drop for Running {
    fn drop(&mut self) {
        self.stop();
    }
}
