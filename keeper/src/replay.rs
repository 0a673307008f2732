//! The two logs, side by side, and against what the program answers now.

use crate::failure::{look_first, of_file, shown, start_again, tell, Failure};
use crate::lines::{count, each, ANSWER, BLOCK, MOST_AT_ONCE};
use crate::logs::{archived, is_changing, whole, ANSWERS, CALLS};
use crate::program::Program;
use crate::told::Told;
use std::fs::File;
use std::io::{self, BufRead, BufReader, Read, Take, Write};
use std::path::Path;
use std::thread;
use std::time::{Duration, Instant};

/// A replay that takes longer shows how far it has come.
const PROGRESS: Duration = Duration::from_secs(1);
/// One that runs begins a new pair of logs in far less time than all tries take.
const TRIES: usize = 20;
const BETWEEN: Duration = Duration::from_millis(50);

const MEND: &str = "bring back the files and the program of then, or open the line anew";

/// The whole lines of both logs, as they were when they were opened.
pub struct Pair {
    calls: Take<BufReader<File>>,
    answers: Take<BufReader<File>>,
    sizes: [u64; 2],
}

impl Pair {
    /// Answers first: one that runs keeps each after its call.
    pub fn open(folder: &Path) -> io::Result<Pair> {
        let read = |name| {
            let file = File::open(folder.join(name))?;
            let size = whole(&file)?;
            Ok::<_, io::Error>(BufReader::new(file).take(size))
        };
        let (answers, calls) = (read(ANSWERS)?, read(CALLS)?);
        Ok(Pair {
            sizes: [calls.limit(), answers.limit()],
            calls,
            answers,
        })
    }

    /// Opens the pair of one that may run, and begin a new pair meanwhile.
    fn open_beside(folder: &Path) -> Result<Pair, Failure> {
        for _ in 0..TRIES {
            let before = archived(folder);
            if !is_changing(folder) {
                let pair = of_file(folder, Pair::open(folder));
                if archived(folder).ok() == before.ok() {
                    return pair;
                }
            }
            thread::sleep(BETWEEN);
        }
        let what = format!("{}: a stop came while a new pair began", folder.display());
        Err(start_again(what, "a start finishes that"))
    }

    /// Some calls, and what is kept of their answers; after all calls, what else
    /// is kept.
    fn next(&mut self) -> io::Result<[Vec<u8>; 2]> {
        let (mut calls, mut answers) = (Vec::new(), Vec::new());
        while calls.len() < BLOCK && self.calls.read_until(b'\n', &mut calls)? > 0 {}
        let most = count(&calls).max(1) * ANSWER;
        let mut next = self.answers.by_ref().take(most as u64);
        next.read_to_end(&mut answers)?;
        Ok([calls, answers])
    }
}

/// What a replay has found.
#[derive(Default)]
pub struct Replayed {
    pub told: Told,
    /// The answers that were not kept before the stop, so none of them went out.
    pub owed: Vec<u8>,
    /// Bytes of the calls that they answer.
    unanswered: usize,
}

/// Replays all calls. Each answer that is kept has to be the one given now.
pub fn replay(folder: &Path, mut pair: Pair, program: &mut Program) -> Result<Replayed, Failure> {
    let mut replayed = Replayed::default();
    let (mut done, mut shown) = (0, Instant::now());
    loop {
        let [calls, kept] = of_file(folder, pair.next())?;
        if calls.is_empty() && !kept.is_empty() {
            return Err(replayed.do_not_fit(b"(none)", &kept, b"(none)"));
        }
        if calls.is_empty() {
            return Ok(replayed);
        }
        let now = program.answers(&calls)?;
        let mut kept = kept.chunks(ANSWER);
        for (call, answer) in each(&calls).zip(now.chunks(ANSWER)) {
            replayed.compare(call, answer, kept.next())?;
        }
        done += calls.len();
        if shown.elapsed() >= PROGRESS {
            let all = pair.sizes[0];
            tell(&format!("replaying: {done} of {all} bytes of calls"));
            shown = Instant::now();
        }
    }
}

impl Replayed {
    fn compare(&mut self, call: &[u8], now: &[u8], kept: Option<&[u8]>) -> Result<(), Failure> {
        if kept.is_some_and(|kept| kept != now) {
            return Err(self.do_not_fit(call, kept.unwrap_or_default(), now));
        }
        if kept.is_none() {
            self.owed.extend(now);
            self.unanswered += call.len();
        }
        self.told.add(call, now);
        Ok(())
    }

    /// The keeper takes no call before those before it are answered. So where
    /// more are unanswered than it takes at once, answers that went out are
    /// missing, and must not go out again.
    pub fn lacks_no_answer(&self) -> Result<(), Failure> {
        if self.unanswered <= MOST_AT_ONCE {
            return Ok(());
        }
        let line = self.told.calls as usize - self.owed.len() / ANSWER;
        let what = format!("{ANSWERS} lacks answers that went out: it ends with line {line}");
        Err(look_first(what, MEND))
    }

    fn do_not_fit(&self, call: &[u8], kept: &[u8], now: &[u8]) -> Failure {
        let line = self.told.calls + 1;
        let (call, kept, now) = (shown(call), shown(kept), shown(now));
        let what = format!(
            "line {line}: {CALLS} and {ANSWERS} do not fit
  call:         {call}
  answer kept:  {kept}
  answer now:   {now}"
        );
        look_first(what, MEND)
    }
}

/// Replays the open pair and compares, and answers nothing.
pub fn check(folder: &Path) -> Result<(), Failure> {
    let pair = Pair::open_beside(folder)?;
    let replayed = replay(folder, pair, &mut Program::start()?)?;
    let (calls, owed) = (replayed.told.calls, replayed.owed.len() / ANSWER);
    print(&format!(
        "{calls} calls, all as answered; not answered yet: {owed}\n"
    ))
}

/// What the logs tell.
pub fn status(folder: &Path) -> Result<(), Failure> {
    let mut pair = Pair::open_beside(folder)?;
    let (mut told, mut unanswered) = (Told::default(), 0);
    loop {
        let [calls, answers] = of_file(folder, pair.next())?;
        if calls.is_empty() {
            break;
        }
        let mut answers = answers.chunks_exact(ANSWER);
        for call in each(&calls) {
            let answer = answers.next();
            unanswered += u64::from(answer.is_none());
            told.add(call, answer.unwrap_or_default());
        }
    }
    let [called, answered] = pair.sizes;
    let archived = archived(folder).unwrap_or(0);
    let (trains, calls) = (told.trains.len(), told.calls);
    let ids = told.trains.join(", ");
    let last = told.last;
    print(&format!(
        "trains on the line: {trains}
their ids:   {ids}
calls: {calls}; not answered yet: {unanswered}
last call:   {}
its answer:  {}
{CALLS}: {called} bytes; {ANSWERS}: {answered} bytes; pairs in the archive: {archived}
",
        shown(&last.0),
        shown(&last.1),
    ))
}

fn print(text: &str) -> Result<(), Failure> {
    let printed = io::stdout().write_all(text.as_bytes());
    printed.map_err(|error| start_again(error, "see to standard output"))
}
