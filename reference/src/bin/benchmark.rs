//! Measures the session program beside the second implementation: time and,
//! where valgrind is there, instructions for each line. With `--before` another
//! session program is measured too. `--only` takes the rows that have this text
//! in their names.

use reference::bench::{
    generated, realistic, slowing_bound, standing_bound, worst_bound, worst_free, Measured,
};
use reference::compare;
use reference::ended;
use reference::kinds::{cheap_mixed, CASES, COUNTED, ONE_BY_ONE, TIMED};
use reference::wire::{lines, ANSWER_BYTES};
use std::cmp::Ordering;
use std::collections::HashMap;
use std::fs::File;
use std::io::{self, Read, Write};
use std::path::{Path, PathBuf};
use std::process::{Command, ExitCode, Output, Stdio};
use std::time::{Duration, Instant};

/// Each input is run so often, and for so long, since short runs vary more.
const LEAST_RUNS: usize = 5;
const LEAST_TIME: Duration = Duration::from_millis(150);
const SHORT_TO_LONG: &[usize] = &[1000, 10_000, 100_000];
const NAME_WIDTH: usize = 50;
const USAGE: &str = "usage: benchmark [--time-only] [--only TEXT] [--program PATH] [--before PATH]";

/// A kind of input, how many lines are timed, and how many are counted.
struct Row {
    name: String,
    make: Box<dyn Fn(usize) -> Measured>,
    feed: Feed,
    timed: &'static [usize],
    counted: &'static [usize],
}

/// How an input comes to a program.
#[derive(Clone, Copy, PartialEq, Eq, Hash)]
enum Feed {
    /// From a file, as much as the program reads at once.
    File,
    /// Each line once the one before it is answered, as trains send them.
    OneByOne,
}

/// An input that is ready to be run.
#[derive(Clone, Copy)]
enum Source<'a> {
    File(&'a Path),
    OneByOne(&'a [u8]),
}

#[derive(Clone, Copy, PartialEq, Eq)]
enum Unit {
    Nanoseconds,
    Instructions,
}

/// The programs in one unit, the session program first.
struct Meter<'a> {
    unit: Unit,
    programs: &'a [PathBuf],
    /// What lead-ins cost in each program, where that is the same at each run.
    /// Many inputs have the same one.
    leads: HashMap<(Vec<u8>, Feed), Vec<f64>>,
}

/// What the lines of a row cost in each program, all together.
struct Found {
    name: String,
    feed: Feed,
    lines: usize,
    costs: Vec<f64>,
}

struct Options {
    time_only: bool,
    only: String,
    programs: Vec<PathBuf>,
}

fn main() -> ExitCode {
    ended(start())
}

fn start() -> Result<(), String> {
    let options = options()?;
    let is_wanted = |name: &String| name.contains(&options.only);
    let (mut rows, mut lists) = (rows(), generated());
    rows.retain(|row| is_wanted(&row.name));
    lists.retain(|(name, _)| is_wanted(&format!("generated: {name}")));
    if rows.is_empty() && lists.is_empty() {
        return Err(format!("no row has {} in its name", options.only));
    }
    print_header(options.programs.len());
    measure(Unit::Nanoseconds, &rows, &lists, &options.programs)?;
    if options.time_only {
        return Ok(());
    }
    if !has_valgrind() {
        println!("valgrind is not there: no instructions counted");
        return Ok(());
    }
    let found = measure(Unit::Instructions, &rows, &lists, &options.programs)?;
    print_largest(&found);
    Ok(())
}

fn options() -> Result<Options, String> {
    let mut time_only = false;
    let mut only = String::new();
    let mut session = compare::program();
    let mut before = None;
    let mut words = std::env::args().skip(1);
    while let Some(word) = words.next() {
        let mut next = || words.next().ok_or(USAGE);
        match word.as_str() {
            "--time-only" => time_only = true,
            "--only" => only = next()?,
            "--program" => session = PathBuf::from(next()?),
            "--before" => before = Some(PathBuf::from(next()?)),
            _ => return Err(USAGE.to_string()),
        }
    }
    let mut programs = vec![session, beside("reference")?];
    programs.extend(before);
    for program in &programs {
        compare::must_exist(program)?;
    }
    Ok(Options {
        time_only,
        only,
        programs,
    })
}

fn row(
    name: impl Into<String>,
    make: impl Fn(usize) -> Measured + 'static,
    timed: &'static [usize],
    counted: &'static [usize],
) -> Row {
    Row {
        name: name.into(),
        make: Box::new(make),
        feed: Feed::File,
        timed,
        counted,
    }
}

fn rows() -> Vec<Row> {
    let mut rows = vec![
        row(
            "realistic, 1 train",
            |count| realistic(1, count),
            SHORT_TO_LONG,
            &[5000],
        ),
        row(
            "realistic, 8 trains",
            |count| realistic(8, count),
            SHORT_TO_LONG,
            &[5000],
        ),
        row(
            "realistic, 32 trains",
            |count| realistic(32, count),
            SHORT_TO_LONG,
            &[5000],
        ),
        row("worst, free track", worst_free, &[1000, 10_000], &[200]),
        row("worst, cap searched", worst_bound, &[1000, 10_000], &[200]),
        row("slowing, cap searched", slowing_bound, &[1000], &[1000]),
        row(
            "stand, cap searched",
            standing_bound,
            &[1000, 10_000],
            &[1000],
        ),
    ];
    for case in CASES {
        for &trains in case.trains {
            let make = move |count| case.measured(trains, count);
            rows.push(row(case.title(trains), make, &[TIMED], &[COUNTED]));
        }
    }
    rows.push(row(
        "cheap, mixed",
        cheap_mixed,
        &[10_000, 100_000],
        &[10_000, 100_000],
    ));
    for (name, make) in ONE_BY_ONE {
        rows.push(Row {
            feed: Feed::OneByOne,
            ..row(format!("one by one: {name}"), make, &[2000], &[2000])
        });
    }
    rows
}

/// The rows and the lists in one unit, printed as they are found.
fn measure(
    unit: Unit,
    rows: &[Row],
    lists: &[(String, Measured)],
    programs: &[PathBuf],
) -> Result<Vec<Found>, String> {
    let mut meter = Meter {
        unit,
        programs,
        leads: HashMap::new(),
    };
    let mut all = Vec::new();
    for row in rows {
        for &count in unit.counts(row) {
            let found = meter.find(&row.name, &(row.make)(count), row.feed)?;
            found.print(unit);
            all.push(found);
        }
    }
    for found in meter.find_lists(lists)? {
        found.print(unit);
        all.push(found);
    }
    Ok(all)
}

impl Meter<'_> {
    fn find(&mut self, name: &str, measured: &Measured, feed: Feed) -> Result<Found, String> {
        let lead = self.lead(&measured.lead, feed)?;
        let whole = self.costs(&measured.whole, feed)?;
        let rest = |(whole, lead): (f64, f64)| (whole - lead).max(0.0);
        Ok(Found {
            name: name.to_string(),
            feed,
            lines: measured.lines,
            costs: whole.into_iter().zip(lead).map(rest).collect(),
        })
    }

    /// All lists as one, and the one with the largest ratio. No list is named for
    /// its time, since that of a short one varies too much.
    fn find_lists(&mut self, lists: &[(String, Measured)]) -> Result<Vec<Found>, String> {
        let mut each = Vec::new();
        for (name, list) in lists {
            each.push(self.find(name, list, Feed::File)?);
        }
        let mut found = Vec::new();
        if !each.is_empty() {
            found.push(Found::sum(&each));
        }
        if self.unit == Unit::Instructions {
            let worst = each.into_iter().max_by(Found::compare);
            found.extend(worst.map(|list| Found {
                name: format!("generated, largest ratio: {}", list.name),
                ..list
            }));
        }
        Ok(found)
    }

    /// What a lead-in costs in each program. It is timed together with each input,
    /// since times vary from minute to minute.
    fn lead(&mut self, input: &[u8], feed: Feed) -> Result<Vec<f64>, String> {
        if self.unit == Unit::Nanoseconds {
            return self.costs(input, feed);
        }
        let key = (input.to_vec(), feed);
        if let Some(costs) = self.leads.get(&key) {
            return Ok(costs.clone());
        }
        let costs = self.costs(input, feed)?;
        self.leads.insert(key, costs.clone());
        Ok(costs)
    }

    /// What a whole input costs in each program.
    fn costs(&self, input: &[u8], feed: Feed) -> Result<Vec<f64>, String> {
        match feed {
            Feed::File => with_file(input, |file| self.in_each(Source::File(file))),
            Feed::OneByOne => self.in_each(Source::OneByOne(input)),
        }
    }

    fn in_each(&self, source: Source) -> Result<Vec<f64>, String> {
        let cost = |program: &PathBuf| self.unit.cost(program, source);
        self.programs.iter().map(cost).collect()
    }
}

impl Unit {
    fn name(self) -> &'static str {
        match self {
            Unit::Nanoseconds => "nanoseconds",
            Unit::Instructions => "instructions",
        }
    }

    fn counts(self, row: &Row) -> &'static [usize] {
        match self {
            Unit::Nanoseconds => row.timed,
            Unit::Instructions => row.counted,
        }
    }

    fn cost(self, program: &Path, source: Source) -> Result<f64, String> {
        match self {
            Unit::Nanoseconds => best_time(program, source),
            Unit::Instructions => instructions(program, source),
        }
    }
}

impl Found {
    fn sum(each: &[Found]) -> Found {
        let cost = |program| each.iter().map(|found| found.costs[program]).sum();
        Found {
            name: format!("generated: {} lists", each.len()),
            feed: Feed::File,
            lines: each.iter().map(|found| found.lines).sum(),
            costs: (0..each[0].costs.len()).map(cost).collect(),
        }
    }

    /// Beside the second implementation.
    fn ratio(&self) -> f64 {
        self.costs[0] / self.costs[1]
    }

    fn compare(&self, other: &Found) -> Ordering {
        self.ratio().total_cmp(&other.ratio())
    }

    /// What a line costs in the first program, then in each other one and how the
    /// first compares with it.
    fn print(&self, unit: Unit) {
        let (name, lines, unit) = (&self.name, self.lines, unit.name());
        let per_line = |cost: f64| cost / lines as f64;
        let session = self.costs[0];
        print!(
            "{name:<NAME_WIDTH$}{lines:>8}{unit:>15}{:>10.0}",
            per_line(session)
        );
        for &other in &self.costs[1..] {
            print!("{:>11.0}{:>7.2}", per_line(other), session / other);
        }
        println!();
    }
}

fn print_header(programs: usize) {
    print!(
        "{:<NAME_WIDTH$}{:>8}{:>15}{:>10}",
        "input", "lines", "for each line", "session"
    );
    for other in ["reference", "before"].iter().take(programs - 1) {
        print!("{other:>11}{:>7}", "ratio");
    }
    println!();
}

/// The largest ratio, and beside it the largest where lines come one by one.
fn print_largest(all: &[Found]) {
    let largest = |feed| {
        let fed = all.iter().filter(|found| found.feed == feed);
        fed.max_by(|one, other| one.compare(other))
    };
    let largest = [Feed::File, Feed::OneByOne].into_iter().filter_map(largest);
    let texts: Vec<String> = largest
        .map(|found| format!("{:.2}, {}", found.ratio(), found.name))
        .collect();
    println!("largest ratio: {}", texts.join("; "));
}

/// A program built together with this one.
fn beside(name: &str) -> Result<PathBuf, String> {
    let own = std::env::current_exe().map_err(|error| format!("no own path: {error}"))?;
    Ok(own.with_file_name(name))
}

fn with_file<T>(
    input: &[u8],
    measure: impl FnOnce(&Path) -> Result<T, String>,
) -> Result<T, String> {
    let name = format!("benchmark-{}.txt", std::process::id());
    let file = std::env::temp_dir().join(name);
    std::fs::write(&file, input).map_err(|error| format!("{}: {error}", file.display()))?;
    let result = measure(&file);
    // A file left in the temporary folder harms nobody.
    let _ = std::fs::remove_file(&file);
    result
}

/// The shortest of some runs, in nanoseconds.
fn best_time(program: &Path, source: Source) -> Result<f64, String> {
    let mut best = f64::INFINITY;
    let start = Instant::now();
    let mut runs = 0;
    while runs < LEAST_RUNS || start.elapsed() < LEAST_TIME {
        runs += 1;
        let begin = Instant::now();
        run(&mut Command::new(program), source)?;
        best = best.min(begin.elapsed().as_nanos() as f64);
    }
    Ok(best)
}

/// Instructions of one run, as callgrind counts them.
fn instructions(program: &Path, source: Source) -> Result<f64, String> {
    let mut command = Command::new("valgrind");
    command
        .args(["--tool=callgrind", "--callgrind-out-file=/dev/null"])
        .arg(program);
    let output = run(&mut command, source)?;
    let text = String::from_utf8_lossy(&output.stderr);
    text.lines()
        .find_map(|line| line.split_once("Collected :"))
        .and_then(|(_, count)| count.trim().parse().ok())
        .ok_or_else(|| format!("valgrind counted nothing:\n{text}"))
}

/// A whole run. Its answers are passed over.
fn run(command: &mut Command, source: Source) -> Result<Output, String> {
    let name = format!("{command:?}");
    command.stderr(Stdio::piped());
    let output = match source {
        Source::File(file) => run_on_file(command, file),
        Source::OneByOne(input) => run_one_by_one(command, input),
    };
    let output = output.map_err(|error| format!("{name}: {error}"))?;
    if !output.status.success() {
        return Err(format!("{name} ended with {}", output.status));
    }
    Ok(output)
}

fn run_on_file(command: &mut Command, file: &Path) -> io::Result<Output> {
    let input = File::open(file)?;
    command.stdin(input).stdout(Stdio::null()).output()
}

fn run_one_by_one(command: &mut Command, input: &[u8]) -> io::Result<Output> {
    command.stdin(Stdio::piped()).stdout(Stdio::piped());
    let mut child = command.spawn()?;
    if let (Some(mut to_child), Some(from_child)) = (child.stdin.take(), child.stdout.as_mut()) {
        let mut answer = [0; ANSWER_BYTES + 1];
        for line in lines(input) {
            to_child.write_all(line)?;
            from_child.read_exact(&mut answer)?;
        }
    }
    child.wait_with_output()
}

fn has_valgrind() -> bool {
    let mut command = Command::new("valgrind");
    command.arg("--version").stdout(Stdio::null());
    command.status().is_ok_and(|status| status.success())
}
