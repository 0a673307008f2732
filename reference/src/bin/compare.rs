//! Compares the session program and the desk program with the second
//! implementation on many generated lists, and checks demand 3's claim on what
//! they answer.

use reference::call::Code;
use reference::callers::{TurnedAway, Wrong};
use reference::compare::{self, Counts, Failure, ANSWERS, CODES};
use reference::compare_desk::{self, DeskCounts};
use reference::ended;
use reference::generate;
use reference::previews;
use reference::rare::fewer_than;
use reference::spoil::LONG_RUN;
use reference::wire::lines;
use std::io::{self, IsTerminal, Write};
use std::path::{Path, PathBuf};
use std::process::ExitCode;
use std::time::Instant;

const DEFAULT_SEED: u64 = 20_260_101;
const DEFAULT_LINES: u64 = 600_000;
const DEFAULT_DESK_LINES: u64 = 150_000;
/// In so many lines each kind of caller without the right tries each call.
const LINES_FOR_A_WRONG_CALLER: u64 = 10_000;
/// In so many lines a search for a cap ends in each way.
const LINES_FOR_A_SEARCH: u64 = 2000;
/// In so many lines a pending call back ends in each way, and meets each call.
const LINES_FOR_A_PENDING: u64 = 20_000;
/// In so many lines there is a long run of empty ones.
const LINES_FOR_A_LONG_RUN: u64 = 100_000;
/// In so many lines of the desk there is a preview of each kind.
const LINES_FOR_A_PREVIEW: u64 = 10_000;
const USAGE: &str = "usage: compare [--seed N] [--lines N] [--program PATH] [--replay FILE] \
                     [--desk-lines N] [--desk PATH] [--replay-desk FILE]";

struct Options {
    seed: u64,
    session: Part,
    desk: Part,
}

/// What is compared of one program: so many lines, or a list from a file.
struct Part {
    program: PathBuf,
    lines: u64,
    replay: Option<PathBuf>,
}

/// What the lists of one program held, while they are compared.
trait Compared: Default {
    /// The word of the option that replays a list.
    const REPLAY: &'static str;

    /// The list with this number of the run with this seed.
    fn list(seed: u64, number: u64) -> Vec<u8>;

    /// Compares the output for a list, and counts what it held.
    fn check(&mut self, input: &[u8], output: &[u8]) -> Result<(), Failure>;

    fn lines(&self) -> u64;

    fn print(&self);

    /// An error where something hardly came up.
    fn enough(&self) -> Result<(), String>;
}

impl Compared for Counts {
    const REPLAY: &'static str = "--replay";

    fn list(seed: u64, number: u64) -> Vec<u8> {
        generate::numbered(seed, number)
    }

    fn check(&mut self, input: &[u8], output: &[u8]) -> Result<(), Failure> {
        compare::check(input, output, self)
    }

    fn lines(&self) -> u64 {
        self.lines
    }

    fn print(&self) {
        print_answers("answer", &self.answers);
        print_counts(self);
        print_turned_away(&self.turned_away);
        println!("{}", out_of_turn(&self.turned_away));
    }

    fn enough(&self) -> Result<(), String> {
        all_numbers_occur(self)?;
        // A few come from spoilt lines alone, so one of a kind is not enough.
        let least = least_of(self.lines, LINES_FOR_A_WRONG_CALLER);
        let rare = self.turned_away.rare(least);
        none_is_rare("callers without the right", least, rare)?;
        // A search that is seldom made is hardly compared.
        let least = least_of(self.lines, LINES_FOR_A_SEARCH);
        none_is_rare("caps found by trials", least, self.orders.rare(least))?;
        let least = least_of(self.lines, LINES_FOR_A_PENDING);
        none_is_rare("pending call backs", least, self.pendings.rare(least))?;
        long_runs_occur(self.long_runs, self.lines)
    }
}

impl Compared for DeskCounts {
    const REPLAY: &'static str = "--replay-desk";

    fn list(seed: u64, number: u64) -> Vec<u8> {
        previews::numbered(seed, number)
    }

    fn check(&mut self, input: &[u8], output: &[u8]) -> Result<(), Failure> {
        compare_desk::check(input, output, self)
    }

    fn lines(&self) -> u64 {
        self.lines
    }

    fn print(&self) {
        print_answers("preview", &self.previews);
        print_foretold(self);
        print_turned_away(&self.turned_away);
        println!("{}", too_early(&self.turned_away));
    }

    fn enough(&self) -> Result<(), String> {
        let least = least_of(self.lines, LINES_FOR_A_PREVIEW);
        none_is_rare("previews and their calls", least, self.rare(least))?;
        long_runs_occur(self.long_runs, self.lines)
    }
}

fn main() -> ExitCode {
    ended(options().and_then(|options| start(&options)))
}

fn options() -> Result<Options, String> {
    let part = |program, lines| Part {
        program,
        lines,
        replay: None,
    };
    let mut options = Options {
        seed: DEFAULT_SEED,
        session: part(compare::program(), DEFAULT_LINES),
        desk: part(compare::desk_program(), DEFAULT_DESK_LINES),
    };
    let mut words = std::env::args().skip(1);
    while let Some(word) = words.next() {
        let value = words.next().ok_or(USAGE)?;
        let number = || value.parse::<u64>().map_err(|_| USAGE.to_string());
        match word.as_str() {
            "--seed" => options.seed = number()?,
            "--lines" => options.session.lines = number()?,
            "--program" => options.session.program = PathBuf::from(value),
            Counts::REPLAY => options.session.replay = Some(PathBuf::from(value)),
            "--desk-lines" => options.desk.lines = number()?,
            "--desk" => options.desk.program = PathBuf::from(value),
            DeskCounts::REPLAY => options.desk.replay = Some(PathBuf::from(value)),
            _ => return Err(USAGE.to_string()),
        }
    }
    Ok(options)
}

/// Lists from files are all that is compared where there are some. A missing
/// program is told before the other is compared.
fn start(options: &Options) -> Result<(), String> {
    let Options {
        seed,
        session,
        desk,
    } = options;
    if session.replay.is_some() || desk.replay.is_some() {
        replay::<Counts>(session)?;
        return replay::<DeskCounts>(desk);
    }
    for part in [session, desk] {
        if part.lines > 0 {
            compare::must_exist(&part.program)?;
        }
    }
    compare_lists::<Counts>(session, *seed)?;
    compare_lists::<DeskCounts>(desk, *seed)
}

fn replay<C: Compared>(part: &Part) -> Result<(), String> {
    let Some(file) = &part.replay else {
        return Ok(());
    };
    let input = std::fs::read(file).map_err(|error| format!("{}: {error}", file.display()))?;
    let mut counts = C::default();
    let output = compare::run(&part.program, &input)?;
    let checked = counts.check(&input, &output);
    checked.map_err(|failure| tell(&failure, &input))?;
    println!("{} lines, no difference", counts.lines());
    Ok(())
}

/// As many lists as have so many lines; with none the program is left out.
fn compare_lists<C: Compared>(part: &Part, seed: u64) -> Result<(), String> {
    if part.lines == 0 {
        return Ok(());
    }
    let begin = Instant::now();
    let mut counts = C::default();
    let mut number = 0;
    while counts.lines() < part.lines {
        compare_list(&part.program, seed, number, &mut counts)?;
        number += 1;
        show_progress(counts.lines(), part.lines);
    }
    clear_progress();
    counts.print();
    println!("{:.1} s, seed {seed}", begin.elapsed().as_secs_f64());
    counts.enough()
}

fn compare_list<C: Compared>(
    program: &Path,
    seed: u64,
    number: u64,
    counts: &mut C,
) -> Result<(), String> {
    let input = C::list(seed, number);
    let keep = |input: &[u8], message| {
        let kept = keep(C::REPLAY, seed, input);
        format!("seed {seed}, list {number}, {message}\n{kept}")
    };
    let output = compare::run(program, &input).map_err(|message| keep(&input, message))?;
    counts.check(&input, &output).map_err(|failure| {
        let cut = up_to(&input, failure.line);
        keep(&cut, tell(&failure, &input))
    })
}

fn tell(failure: &Failure, input: &[u8]) -> String {
    let text = |bytes: &[u8]| String::from_utf8_lossy(bytes).trim_end().to_string();
    let line = lines(input).nth(failure.line - 1).unwrap_or_default();
    format!(
        "line {}: {}\ninput:     {:?}\nexpected:  {}\nfound:     {}",
        failure.line,
        failure.why,
        text(&line[..line.len().min(200)]),
        text(&failure.expected),
        text(&failure.found),
    )
}

/// Writes the failing input to a file that can be replayed, and says so.
fn keep(replay: &str, seed: u64, input: &[u8]) -> String {
    clear_progress();
    let file = format!("failing-{seed}.txt");
    match std::fs::write(&file, input) {
        Ok(()) => format!("the input up to there is in {file}: compare {replay} {file}"),
        Err(error) => format!("{file} cannot be written: {error}"),
    }
}

fn up_to(input: &[u8], line: usize) -> Vec<u8> {
    lines(input).take(line).collect::<Vec<_>>().concat()
}

fn show_progress(done: u64, all: u64) {
    if io::stderr().is_terminal() {
        eprint!("\r{done} of {all} lines");
        // A progress line that cannot be shown is no failure.
        let _ = io::stderr().flush();
    }
}

fn clear_progress() {
    if io::stderr().is_terminal() {
        eprint!("\r\x1b[K");
    }
}

/// Lines by answer number and call code.
fn print_answers(title: &str, answers: &[[u64; ANSWERS]; CODES]) {
    print!("{title:>10}{:>11}", "unreadable");
    print_codes();
    println!("{:>11}", "all");
    for number in 0..ANSWERS {
        let row = answers.map(|of_code| of_code[number]);
        print!("{number:>10}");
        row.iter().for_each(|count| print!("{count:>11}"));
        println!("{:>11}", row.iter().sum::<u64>());
    }
}

fn print_counts(counts: &Counts) {
    println!(
        "{} lines in {} lists, {} reports",
        counts.lines,
        counts.lists,
        counts.by_code(Code::Report)
    );
    let named = |(what, count)| format!("{count} {what}");
    let caps = counts.orders.named().map(named);
    println!("caps found by trials: {}", caps.join(", "));
    println!(
        "{} lists reached the held count, {} of them with a train that was moving",
        counts.lists_held, counts.lists_held_moving
    );
    let brakes = counts.penalties;
    println!(
        "{} moving trains braked for want of track, {} under a hold; {} stood afterwards; until then {} extensions and {} lifts; at most {} at a time",
        brakes.without_hold,
        brakes.under_hold,
        brakes.stood,
        brakes.extended,
        brakes.lifted,
        brakes.together
    );
    let ends = counts.pendings.named().map(named);
    println!("pending call backs: {}", ends.join(", "));
    println!(
        "{} runs of {LONG_RUN} empty lines or more",
        counts.long_runs
    );
}

/// Calls that came right after their own previews.
fn print_foretold(counts: &DeskCounts) {
    print_head("after its preview");
    print_row("accepted", |code| counts.foretold(code).accepted);
    print_row("refused", |code| counts.foretold(code).refused);
    print_row("out of turn", |code| counts.foretold(code).out_of_turn);
    print_row("previewed as pending", |code| counts.pending(code));
    println!(
        "{} lines in {} lists, {} of them no previews; {} runs of {LONG_RUN} empty lines or more",
        counts.lines, counts.calls.lists, counts.calls.lines, counts.long_runs
    );
}

fn print_head(title: &str) {
    print!("{title:>21}");
    print_codes();
    println!();
}

fn print_row(name: &str, count: impl Fn(Code) -> u64) {
    print!("{name:>21}");
    Code::ALL
        .iter()
        .for_each(|&code| print!("{:>11}", count(code)));
    println!();
}

fn print_codes() {
    Code::ALL
        .iter()
        .for_each(|code| print!("{:>11}", format!("{code:?}")));
}

/// Callers without the right, by what they are and what they called.
fn print_turned_away(counts: &TurnedAway) {
    print_head("turned away");
    for kind in Wrong::ALL {
        print_row(&format!("{kind:?}"), |code| counts.by_kind(kind, code));
    }
    for (number, count) in counts.by_number() {
        print!("{count} from {number}, ");
    }
    print!("{} numbers too wide; ", counts.too_wide);
}

fn out_of_turn(counts: &TurnedAway) -> String {
    format!(
        "out of turn without the right: {} calls, {} openings",
        counts.too_early, counts.second_openings
    )
}

/// No preview of an opening is out of turn.
fn too_early(counts: &TurnedAway) -> String {
    format!("too early without the right: {}", counts.too_early)
}

/// How often something has to come up that comes up once in so many lines.
fn least_of(lines: u64, once_in: u64) -> u64 {
    (lines / once_in).max(1)
}

fn none_is_rare(what: &str, least: u64, rare: Vec<String>) -> Result<(), String> {
    if rare.is_empty() {
        return Ok(());
    }
    Err(format!("{what}, fewer than {least}: {}", rare.join(", ")))
}

/// A read of other lines ends some 50, and has answers shorter than itself.
fn long_runs_occur(runs: u64, lines: u64) -> Result<(), String> {
    let least = least_of(lines, LINES_FOR_A_LONG_RUN);
    let rare = fewer_than(least, [("long runs", runs)]);
    none_is_rare("runs of empty lines", least, rare)
}

fn all_numbers_occur(counts: &Counts) -> Result<(), String> {
    match (0..ANSWERS).find(|&number| counts.by_number(number) == 0) {
        Some(number) => Err(format!("answer {number} did not occur")),
        None => Ok(()),
    }
}
