//! A line that is kept in a folder of its own, as its users and its owner see it.

use std::fs;
use std::io::{self, Read, Write};
use std::os::unix::process::CommandExt;
use std::path::{Path, PathBuf};
use std::process::{Child, ChildStdin, Command, Stdio};
use std::sync::atomic::{AtomicU64, Ordering};
use std::sync::{Arc, Mutex};
use std::thread::{self, JoinHandle};
use std::time::{Duration, Instant};

/// Bytes of an answer with its line feed.
pub const ANSWER: usize = 45;
/// A keeper that hangs must not hang the tests.
const PATIENCE: Duration = Duration::from_secs(10);

/// A call as document 01 writes it, with its line feed.
pub fn line(code: u64, numbers: [u64; 5], caller: u64) -> Vec<u8> {
    let [a, b, c, d, e] = numbers;
    format!("{code:>2}{a:>14}{b:>14}{c:>14}{d:>14}{e:>14}{caller:>14}\n").into_bytes()
}

/// Whole lines; what stands after the last line feed is none.
pub fn as_lines(bytes: &[u8]) -> Vec<Vec<u8>> {
    let lines = bytes.split_inclusive(|&byte| byte == b'\n');
    let whole = lines.filter(|line| line.ends_with(b"\n"));
    whole.map(<[u8]>::to_vec).collect()
}

/// A line as it is kept: of a long one the first bytes alone.
pub fn as_kept(line: &[u8]) -> Vec<u8> {
    const MOST: usize = 87;
    match line {
        [start @ .., b'\n'] if start.len() > MOST => [&start[..MOST], b"\n"].concat(),
        _ => line.to_vec(),
    }
}

pub struct Kept {
    keep: PathBuf,
    root: PathBuf,
    pub folder: PathBuf,
    /// What runs as the session program.
    pub session: PathBuf,
}

impl Kept {
    pub fn new(keep: &Path, name: &str) -> Kept {
        static COUNT: AtomicU64 = AtomicU64::new(0);
        let count = COUNT.fetch_add(1, Ordering::Relaxed);
        let name = format!("{name}-{}-{count}", std::process::id());
        let root = Path::new(env!("CARGO_TARGET_TMPDIR")).join(name);
        fs::create_dir_all(&root).expect("a folder");
        let session = reference::compare::program();
        reference::compare::must_exist(&session).unwrap_or_else(|why| panic!("{why}"));
        Kept {
            keep: keep.to_path_buf(),
            folder: root.join("line"),
            session: fs::canonicalize(session).expect("a path"),
            root,
        }
    }

    /// A file beside the folder.
    pub fn beside(&self, name: &str) -> PathBuf {
        self.root.join(name)
    }

    pub fn path(&self, name: &str) -> PathBuf {
        self.folder.join(name)
    }

    pub fn read(&self, name: &str) -> Vec<u8> {
        fs::read(self.path(name)).unwrap_or_default()
    }

    pub fn put(&self, name: &str, bytes: &[u8]) {
        fs::create_dir_all(self.path(name).parent().expect("a folder")).expect("a folder");
        fs::write(self.path(name), bytes).expect("a file");
    }

    pub fn command(&self) -> Command {
        let mut command = Command::new(&self.keep);
        command.arg(&self.folder).env("SESSION", &self.session);
        command
    }

    /// With no file larger than so many kilobytes, as on a disk that is full.
    pub fn limited(&self, kilobytes: u64) -> Command {
        let mut command = Command::new("bash");
        let limit = format!("trap '' XFSZ; ulimit -f {kilobytes}; exec \"$@\"");
        command.args(["-c", &limit, "bash"]).arg(&self.keep);
        command.arg(&self.folder).env("SESSION", &self.session);
        command
    }

    /// Without a call for now.
    pub fn look(&self, option: &str) -> Stopped {
        let mut command = Command::new(&self.keep);
        command.arg(option).arg(&self.folder);
        command.env("SESSION", &self.session);
        Running::of(&mut command).ended()
    }

    pub fn start(&self) -> Running {
        Running::of(&mut self.command())
    }

    /// Sends all of it, and ends the input.
    pub fn sent(&self, calls: &[u8]) -> Stopped {
        let mut run = self.start();
        // Where it stops early, its status and its answers tell.
        let _ = run.write(calls);
        run.ended()
    }

    /// All calls and answers in the logs, those in the archive first, whatever a
    /// stop has left. Each pair but the first begins with the opening again.
    pub fn told(&self) -> [Vec<u8>; 2] {
        ["calls.log", "answers.log"].map(|name| self.all_of(name))
    }

    fn all_of(&self, name: &str) -> Vec<u8> {
        let places = (1..).map(|number| self.path(&format!("archive/{number:06}")));
        let places: Vec<PathBuf> = places.take_while(|place| place.exists()).collect();
        let mut files: Vec<PathBuf> = places.iter().map(|place| place.join(name)).collect();
        files.push(self.path(name));
        if let Some(last) = places.last() {
            let (old, new) = (last.join(name), last.join(format!("next-{name}")));
            if new.exists() {
                let count = files.len();
                files[count - 1] = new;
                if !old.exists() {
                    files[count - 2] = self.path(name);
                }
            }
        }
        let mut all = as_lines(&fs::read(&files[0]).unwrap_or_default());
        for file in &files[1..] {
            let lines = as_lines(&fs::read(file).expect("a log"));
            all.extend_from_slice(&lines[1..]);
        }
        all.concat()
    }
}

impl Drop for Kept {
    fn drop(&mut self) {
        // A folder left there harms nobody.
        let _ = fs::remove_dir_all(&self.root);
    }
}

/// What came of a run.
pub struct Stopped {
    pub status: Option<i32>,
    pub received: Vec<u8>,
    /// What it said on standard error.
    pub told: String,
}

pub struct Running {
    child: Child,
    input: Option<ChildStdin>,
    received: Arc<Mutex<Vec<u8>>>,
    readers: Vec<JoinHandle<Vec<u8>>>,
}

impl Running {
    pub fn of(command: &mut Command) -> Running {
        // The group is what a stop of both kills.
        let command = command.stdin(Stdio::piped()).process_group(0);
        let command = command.stdout(Stdio::piped()).stderr(Stdio::piped());
        let mut child = command.spawn().expect("it starts");
        let input = child.stdin.take();
        let (mut output, mut errors) = (
            child.stdout.take().expect("output"),
            child.stderr.take().expect("errors"),
        );
        let received = Arc::new(Mutex::new(Vec::new()));
        let shared = Arc::clone(&received);
        let reader = thread::spawn(move || {
            let mut block = [0; 65536];
            while let Ok(count @ 1..) = output.read(&mut block) {
                shared.lock().expect("bytes").extend(&block[..count]);
            }
            Vec::new()
        });
        let told = thread::spawn(move || {
            let mut told = Vec::new();
            // What was read until then is what it said.
            let _ = errors.read_to_end(&mut told);
            told
        });
        Running {
            child,
            input,
            received,
            readers: vec![reader, told],
        }
    }

    pub fn id(&self) -> u32 {
        self.child.id()
    }

    pub fn write(&mut self, bytes: &[u8]) -> io::Result<()> {
        self.input
            .as_mut()
            .expect("the input is open")
            .write_all(bytes)
    }

    pub fn answers(&self) -> usize {
        self.received.lock().expect("bytes").len() / ANSWER
    }

    /// Whether so many answers have come, in time.
    pub fn has_answered(&mut self, count: usize) -> bool {
        let begin = Instant::now();
        while self.answers() < count && begin.elapsed() < PATIENCE {
            if self.child.try_wait().expect("a status").is_some() {
                break;
            }
            thread::sleep(Duration::from_micros(200));
        }
        self.answers() >= count
    }

    /// Its input ends.
    pub fn ended(mut self) -> Stopped {
        self.input = None;
        self.stopped()
    }

    /// It ends by itself, though its input does not.
    pub fn stopped(mut self) -> Stopped {
        let begin = Instant::now();
        while self.child.try_wait().expect("a status").is_none() {
            if begin.elapsed() > PATIENCE {
                signal(&format!("-{}", self.id()));
                panic!("it does not end");
            }
            thread::sleep(Duration::from_micros(200));
        }
        let status = self.child.wait().expect("a status");
        let mut texts = self.readers.drain(..).map(|reader| reader.join());
        let told = texts.next_back().expect("errors").expect("bytes");
        texts.for_each(drop);
        let received = std::mem::take(&mut *self.received.lock().expect("bytes"));
        Stopped {
            status: status.code(),
            received,
            told: String::from_utf8_lossy(&told).into_owned(),
        }
    }

    pub fn killed(mut self) -> Stopped {
        // It may have ended by itself.
        let _ = self.child.kill();
        self.stopped()
    }

    /// The program is killed, and the keeper finds it out.
    pub fn program_killed(self) -> Stopped {
        let id = self.id();
        let children = fs::read_to_string(format!("/proc/{id}/task/{id}/children"));
        children
            .unwrap_or_default()
            .split_whitespace()
            .for_each(signal);
        self.ended()
    }

    pub fn both_killed(self) -> Stopped {
        signal(&format!("-{}", self.id()));
        self.stopped()
    }
}

/// Kills a process, or a group of them; it may have ended by itself.
fn signal(who: &str) {
    let kill = format!("kill -KILL -- {who}");
    let _ = Command::new("bash")
        .args(["-c", &kill])
        .stderr(Stdio::null())
        .status();
}
