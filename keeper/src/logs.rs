//! The folder of a line: its lock, the open pair of logs, and the archive.

use crate::failure::{look_first, of_file, of_flush, tell, Failure};
use std::fs::{self, File, TryLockError};
use std::io::{self, Write};
use std::os::unix::fs::FileExt;
use std::path::{Path, PathBuf};

pub const CALLS: &str = "calls.log";
pub const ANSWERS: &str = "answers.log";
/// A folder for each old pair, numbered from 1. While a new pair is begun, the
/// last of them has the new files too, under the second names.
const ARCHIVE: &str = "archive";
const PAIR: [(&str, &str); 2] = [(CALLS, "next-calls.log"), (ANSWERS, "next-answers.log")];
/// The process that holds the folder writes its number there.
const HOLDER: &str = "holder";

/// A log that is open. What is kept in it is on the disk afterwards.
pub struct Log {
    path: PathBuf,
    file: File,
}

impl Log {
    fn open(path: PathBuf) -> Result<Log, Failure> {
        let opened = File::options()
            .read(true)
            .append(true)
            .create(true)
            .open(&path);
        let file = of_file(&path, opened)?;
        Ok(Log { path, file })
    }

    pub fn keep(&mut self, lines: &[u8]) -> Result<(), Failure> {
        of_file(&self.path, self.file.write_all(lines))?;
        self.flush()
    }

    fn flush(&self) -> Result<(), Failure> {
        of_flush(&self.path, self.file.sync_data())
    }

    /// Takes off what a stop left of a last line: nobody was answered for it. What
    /// stands there is on the disk from now on, also where a kill came before a
    /// flush.
    pub fn mend(&self) -> Result<(), Failure> {
        let whole = of_file(&self.path, whole(&self.file))?;
        let all = of_file(&self.path, self.file.metadata())?.len();
        if all > whole {
            let (path, torn) = (self.path.display(), all - whole);
            tell(&format!(
                "{path}: its last line, cut by a stop, is taken off: {torn} bytes"
            ));
            of_file(&self.path, self.file.set_len(whole))?;
        }
        self.flush()
    }
}

/// Bytes of a log up to its last line feed.
pub fn whole(log: &File) -> io::Result<u64> {
    let mut block = [0; 4096];
    let mut end = log.metadata()?.len();
    while end > 0 {
        let start = end.saturating_sub(block.len() as u64);
        let part = &mut block[..(end - start) as usize];
        log.read_exact_at(part, start)?;
        if let Some(feed) = part.iter().rposition(|&byte| byte == b'\n') {
            return Ok(start + feed as u64 + 1);
        }
        end = start;
    }
    Ok(0)
}

/// The folder, held by this process alone until it ends.
pub struct Folder {
    path: PathBuf,
    _lock: File,
}

impl Folder {
    /// The lock is on the folder itself: no file is there to be cleared away.
    pub fn hold(path: &Path) -> Result<Folder, Failure> {
        of_file(path, make_folder(path))?;
        let lock = of_file(path, File::open(path))?;
        match lock.try_lock() {
            Err(TryLockError::WouldBlock) => return Err(held(path)),
            Err(TryLockError::Error(error)) => of_file(path, Err(error))?,
            Ok(()) => {}
        }
        let holder = format!("{}\n", std::process::id());
        of_file(path, fs::write(path.join(HOLDER), holder))?;
        let path = path.to_path_buf();
        Ok(Folder { path, _lock: lock })
    }

    /// The open pair, calls first.
    pub fn logs(&self) -> Result<[Log; 2], Failure> {
        of_file(&self.path, self.change())?;
        let [calls, answers] = [CALLS, ANSWERS].map(|name| self.path.join(name));
        if fs::metadata(&calls).is_ok_and(|calls| calls.len() > 0) && !answers.exists() {
            let what = format!(
                "{} is missing, so what was answered is not known",
                answers.display()
            );
            return Err(look_first(what, "bring it back, or open the line anew"));
        }
        let logs = [Log::open(calls)?, Log::open(answers)?];
        of_file(&self.path, sync_folder(&self.path))?;
        Ok(logs)
    }

    /// Begins a new pair with these lines. The old one goes to the archive.
    pub fn begin_anew(&self, calls: &[u8], answers: &[u8]) -> Result<[Log; 2], Failure> {
        of_file(&self.path, self.prepare([calls, answers]))?;
        tell("no train is on the line: a new pair of logs begins, the old one is archived");
        self.logs()
    }

    /// The next place in the archive, with the new files; it is there as a whole,
    /// or not at all.
    fn prepare(&self, lines: [&[u8]; 2]) -> io::Result<()> {
        let archive = self.path.join(ARCHIVE);
        let part = archive.join("part");
        // A stop may have left it.
        let _ = fs::remove_dir_all(&part);
        make_folder(&archive)?;
        make_folder(&part)?;
        for ((_, next), lines) in PAIR.into_iter().zip(lines) {
            let mut file = File::create_new(part.join(next))?;
            file.write_all(lines)?;
            file.sync_all()?;
        }
        sync_folder(&part)?;
        let number = archived(&self.path)? + 1;
        fs::rename(&part, archive.join(format!("{number:06}")))?;
        sync_folder(&archive)
    }

    /// Has the old files and the new ones change places, if that is not done. A
    /// stop may come between any two steps: a start takes those that are left.
    fn change(&self) -> io::Result<()> {
        let Some(place) = changing(&self.path)? else {
            return Ok(());
        };
        for (name, next) in PAIR {
            let (open, old, new) = (self.path.join(name), place.join(name), place.join(next));
            if !old.exists() {
                fs::rename(&open, &old)?;
                sync_folder(&place)?;
                sync_folder(&self.path)?;
            }
            if new.exists() {
                fs::rename(&new, &open)?;
                sync_folder(&self.path)?;
                sync_folder(&place)?;
            }
        }
        Ok(())
    }
}

/// The number of the archive's last pair, or 0.
pub fn archived(folder: &Path) -> io::Result<u64> {
    let archive = folder.join(ARCHIVE);
    if !archive.exists() {
        return Ok(0);
    }
    let mut last = 0;
    for entry in fs::read_dir(archive)? {
        let name = entry?.file_name();
        last = last.max(name.to_string_lossy().parse().unwrap_or(0));
    }
    Ok(last)
}

/// Whether a new pair is being begun, or was when a stop came.
pub fn is_changing(folder: &Path) -> bool {
    changing(folder).is_ok_and(|place| place.is_some())
}

/// The archive's last place, where the new pair is not in its place yet.
fn changing(folder: &Path) -> io::Result<Option<PathBuf>> {
    let number = archived(folder)?;
    let place = folder.join(ARCHIVE).join(format!("{number:06}"));
    let is_begun = PAIR.iter().any(|(_, next)| place.join(next).exists());
    Ok(is_begun.then_some(place))
}

fn held(folder: &Path) -> Failure {
    let holder = fs::read_to_string(folder.join(HOLDER)).unwrap_or_default();
    let what = format!("{} is held by process {}", folder.display(), holder.trim());
    look_first(what, "that one keeps the line; a second is not started")
}

/// Makes a folder that is missing, and has its name on the disk.
fn make_folder(path: &Path) -> io::Result<()> {
    fs::create_dir_all(path)?;
    sync_folder(&path.join(".."))
}

/// The names in a folder are on the disk once the folder is.
fn sync_folder(path: &Path) -> io::Result<()> {
    File::open(path)?.sync_all()
}
