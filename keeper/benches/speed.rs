//! What a call costs through the keeper, beside the bare session program: alone,
//! each once the one before it is answered, and in batches, from a file. On the
//! disk, and in memory, where a flush costs nothing.

use reference::bench::realistic;
use reference::compare::program;
use reference::wire::{lines, ANSWER_BYTES};
use std::fs::{self, File};
use std::io::{Read, Write};
use std::path::Path;
use std::process::{Command, Stdio};
use std::time::{Duration, Instant};

const TRAINS: usize = 8;
const ALONE: usize = 2000;
const TOGETHER: usize = 100_000;
/// The best of so many runs.
const RUNS: usize = 5;

fn main() {
    let places = [
        (
            "keeper, on the disk",
            Path::new(env!("CARGO_TARGET_TMPDIR")),
        ),
        ("keeper, in memory", Path::new("/dev/shm")),
    ];
    let (alone, together) = (realistic(TRAINS, ALONE), realistic(TRAINS, TOGETHER));
    println!("microseconds for a call, realistic, {TRAINS} trains");
    println!("{:24}{:>10}{:>10}{:>10}", "", "alone", "together", "replay");
    let file = Path::new(env!("CARGO_TARGET_TMPDIR")).join("speed-calls");
    fs::write(&file, &together.whole).expect("a file");
    let bare = || Command::new(program());
    let one = best(|| one_by_one(bare(), &alone.whole)) / ALONE as f64;
    let all = best(|| at_once(bare(), &file)) / TOGETHER as f64;
    println!("{:24}{one:>10.2}{all:>10.3}", "session program");
    for (name, place) in places.iter().filter(|(_, place)| place.is_dir()) {
        let folder = place.join(format!("speed-{}", std::process::id()));
        let keep = || {
            let mut command = Command::new(env!("CARGO_BIN_EXE_keep"));
            command.arg(&folder).env("SESSION", program());
            command
        };
        let anew = || drop(fs::remove_dir_all(&folder));
        let one = best(|| {
            anew();
            one_by_one(keep(), &alone.whole)
        });
        let all = best(|| {
            anew();
            at_once(keep(), &file)
        });
        let nothing = Path::new("/dev/null");
        let again = best(|| at_once(keep(), nothing));
        let (one, many) = (one / ALONE as f64, TOGETHER as f64);
        println!(
            "{name:24}{one:>10.2}{:>10.3}{:>10.3}",
            all / many,
            again / many
        );
        anew();
    }
}

/// Microseconds.
fn best(run: impl Fn() -> Duration) -> f64 {
    let times = (0..RUNS).map(|_| run().as_secs_f64() * 1e6);
    times.fold(f64::INFINITY, f64::min)
}

/// From its first call on: a start is not measured.
fn one_by_one(mut command: Command, input: &[u8]) -> Duration {
    let command = command.stdin(Stdio::piped()).stdout(Stdio::piped());
    let mut child = command.spawn().expect("it starts");
    let mut to_child = child.stdin.take().expect("its input");
    let mut from_child = child.stdout.take().expect("its output");
    let mut answer = [0; ANSWER_BYTES + 1];
    let mut begin = Instant::now();
    for (count, line) in lines(input).enumerate() {
        to_child.write_all(line).expect("it reads");
        from_child.read_exact(&mut answer).expect("it answers");
        if count == 0 {
            begin = Instant::now();
        }
    }
    let time = begin.elapsed();
    drop(to_child);
    assert!(child.wait().expect("a status").success());
    time
}

/// A whole run.
fn at_once(mut command: Command, file: &Path) -> Duration {
    let input = File::open(file).expect("a file");
    let begin = Instant::now();
    let status = command.stdin(input).stdout(Stdio::null()).status();
    assert!(status.expect("it runs").success());
    begin.elapsed()
}
