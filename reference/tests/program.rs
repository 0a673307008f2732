//! How the program under test reads and writes: pieces, waiting, long lines,
//! ends that fail. What it answers is compared with the second implementation.
//! And how the scripts `session` and `desk` start their programs, short of
//! proving.

mod running;

use reference::compare::program;
use reference::generate::{list, Kind};
use reference::session;
use reference::wire::{ANSWER_BYTES, FIELD_BYTES, MESSAGE_BYTES};
use running::Tested;
use std::fs;
use std::io::{BufRead, BufReader};
use std::os::unix::fs::symlink;
use std::path::{Path, PathBuf};
use std::process::{Child, Command, Output, Stdio};
use std::thread;
use std::time::Duration;

/// The worked session: an opening, then a train that enters.
const CALLS: &[u8] = include_bytes!("../../docs/session/calls.txt");
const ANSWERS: &[u8] = include_bytes!("../../docs/session/answers.txt");
const OPENING: &[u8] = CALLS.split_at(MESSAGE_BYTES + 1).0;
const ENTERING: &[u8] = CALLS
    .split_at(MESSAGE_BYTES + 1)
    .1
    .split_at(MESSAGE_BYTES + 1)
    .0;
const DONE: &str = text(ANSWERS.split_at(ANSWER_BYTES + 1).0);
const ENTERED: &str = text(
    ANSWERS
        .split_at(ANSWER_BYTES + 1)
        .1
        .split_at(ANSWER_BYTES + 1)
        .0,
);
const UNREADABLE: &str = " 1             0             0             0\n";

const fn text(bytes: &[u8]) -> &str {
    match std::str::from_utf8(bytes) {
        Ok(text) => text,
        Err(_) => panic!("answers are text"),
    }
}

fn tested() -> Tested {
    Tested {
        name: "session",
        path: program(),
        lines: [OPENING, ENTERING],
        answers: [DONE, ENTERED].map(str::to_string),
        unreadable: UNREADABLE.to_string(),
    }
}

fn output_of(input: &[u8]) -> String {
    tested().output_of(input)
}

#[test]
fn empty_input_has_empty_output() {
    assert_eq!(output_of(b""), "");
}

#[test]
fn whole_lines_are_answered_before_it_waits() {
    tested().answers_whole_lines_before_it_waits();
}

#[test]
fn line_may_come_byte_by_byte() {
    tested().takes_a_line_byte_by_byte();
}

#[test]
fn every_line_feed_of_a_read_is_answered() {
    tested().answers_every_line_feed_of_a_read();
}

#[test]
fn pieces_give_the_same_output_as_the_whole() {
    for kind in [Kind::Garbage, Kind::Tight, Kind::Openings] {
        let input = list(11, kind);
        tested().answers_pieces_as_the_whole(&input, &session::run(&input));
    }
}

#[test]
fn missing_last_line_feed_is_1() {
    tested().answers_1_where_the_last_line_feed_is_missing();
}

/// Bytes put into a good line at a place, in place of those there.
fn altered(line: &[u8], place: usize, bytes: &[u8]) -> Vec<u8> {
    let mut line = line.to_vec();
    line[place..place + bytes.len()].copy_from_slice(bytes);
    line
}

#[test]
fn unreadable_lines_are_1() {
    let hold =
        b" 6             7             0             0             0             0             0\n";
    let without_feed = &hold[..hold.len() - 1];
    let without_caller = &hold[..MESSAGE_BYTES - FIELD_BYTES];
    let (unused, caller) = (without_caller.len() - 1, MESSAGE_BYTES - 1);
    let unreadable = [
        b"\n".to_vec(),
        hold[1..].to_vec(),
        [b" ", &hold[..]].concat(),
        [without_feed, b" \n"].concat(),
        [without_feed, b"\r\n"].concat(),
        [without_feed, without_feed, b"\n"].concat(),
        [without_caller, b"\n"].concat(),
        [without_caller, b" \n"].concat(),
        [without_caller, b"9223372036854775808\n"].concat(),
        [without_caller, b"18446744073709551616\n"].concat(),
        altered(hold, caller, b"\r"),
        altered(hold, 0, b"06"),
        altered(hold, 0, b"6 "),
        altered(hold, 0, b"  "),
        altered(hold, 0, b" 0"),
        altered(hold, 0, b" 9"),
        altered(hold, 0, b"16"),
        altered(hold, 0, b"56"),
        altered(hold, 14, b"07"),
        altered(hold, 14, b"+7"),
        altered(hold, 14, b"-7"),
        altered(hold, 14, b"\t7"),
        altered(hold, 14, b"\x007"),
        altered(hold, 14, b"7 "),
        altered(hold, 13, b"7 7"),
        altered(hold, 15, b" "),
        altered(hold, 28, b"00"),
        altered(hold, 29, b"1"),
        altered(hold, unused, b"1"),
        altered(hold, unused, b" "),
        altered(hold, unused, b"x"),
        altered(hold, unused, b"\xb2"),
        altered(hold, caller - 1, b"00"),
        altered(hold, caller - 1, b"-0"),
        altered(hold, caller - 1, b"0 "),
        altered(hold, caller, b" "),
        altered(hold, caller, b"x"),
    ];
    for line in unreadable {
        let input = [OPENING, ENTERING, &line, hold].concat();
        let expected = format!("{DONE}{ENTERED}{UNREADABLE}{DONE}");
        assert_eq!(output_of(&input), expected, "{:?}", line.escape_ascii());
        assert_eq!(output_of(&line), UNREADABLE, "before the opening");
    }
}

#[test]
fn line_is_opened_once_and_first() {
    let too_long = altered(OPENING, 3, b"2000000000001");
    let input = [ENTERING, &too_long, OPENING, OPENING, &too_long, ENTERING].concat();
    let refused = |number| format!("{number:>2}{:>14}{:>14}{:>14}\n", 0, 0, 0);
    let expected = [
        &refused(2),
        &refused(3),
        DONE,
        &refused(2),
        &refused(2),
        ENTERED,
    ];
    assert_eq!(output_of(&input), expected.concat());
}

/// Out of turn comes before the right, and the right before a setting.
#[test]
fn line_is_opened_by_the_dispatcher() {
    let by_the_yard = |line: &[u8]| altered(line, MESSAGE_BYTES - FIELD_BYTES, b"         70000");
    let by_nobody = |line: &[u8]| altered(line, MESSAGE_BYTES - FIELD_BYTES, b"99999999999999");
    let too_long = altered(OPENING, 3, b"2000000000001");
    let input = [
        by_nobody(ENTERING),
        by_the_yard(OPENING),
        by_nobody(&too_long),
        OPENING.to_vec(),
        by_the_yard(&too_long),
        by_nobody(ENTERING),
        ENTERING.to_vec(),
    ];
    let refused = |number| format!("{number:>2}{:>14}{:>14}{:>14}\n", 0, 0, 0);
    let expected = [
        &refused(2),
        &refused(16),
        &refused(16),
        DONE,
        &refused(2),
        &refused(16),
        ENTERED,
    ];
    assert_eq!(output_of(&input.concat()), expected.concat());
}

#[test]
fn very_long_line_is_answered_once_with_little_memory() {
    tested().answers_a_very_long_line_once_with_little_memory();
}

#[test]
fn closed_output_ends_the_program() {
    tested().ends_when_its_output_is_closed();
}

#[test]
fn full_output_ends_the_program() {
    tested().ends_when_its_output_is_full();
}

#[test]
fn failed_read_is_told() {
    tested().tells_of_a_failed_read();
}

#[test]
fn line_before_a_failed_read_is_not_answered() {
    tested().leaves_the_line_before_a_failed_read_unanswered();
}

#[test]
fn failed_write_is_told() {
    tested().tells_of_a_failed_write();
}

// ---- the scripts

/// Each starts the program of its name.
const SCRIPTS: [&str; 2] = ["session", "desk"];
/// What they have in common.
const STARTER: &str = "start.sh";

fn of_project(file: &str) -> PathBuf {
    Path::new(env!("CARGO_MANIFEST_DIR")).join("..").join(file)
}

/// How a script ended, and what it wrote and said.
struct Ended {
    status: Option<i32>,
    answers: String,
    told: String,
}

impl Ended {
    fn of(output: Output) -> Ended {
        let text = |bytes| String::from_utf8(bytes).expect("text");
        Ended {
            status: output.status.code(),
            answers: text(output.stdout),
            told: text(output.stderr),
        }
    }

    /// It started the program, and had nothing to say.
    fn ran_quietly(&self) -> bool {
        self.answers == "run\n" && self.told.is_empty()
    }
}

fn run_script(script: &str, words: &[&str]) -> Ended {
    let mut command = Command::new(of_project(script));
    command.args(words).stdin(Stdio::null());
    Ended::of(command.output().expect("the script runs"))
}

#[test]
fn script_has_a_help() {
    let words = ["README.md", "--build", "Exit status"];
    for (script, own) in [
        ("session", ["usage: ./session", "take off"]),
        ("desk", ["usage: ./desk", "50 + c previews call c"]),
    ] {
        let ended = run_script(script, &["--help"]);
        let help = ended.answers;
        assert_eq!(ended.status, Some(0), "{script}");
        assert_eq!(ended.told, "");
        for word in own.iter().chain(&words) {
            assert!(help.contains(word), "{word}: {help}");
        }
    }
}

#[test]
fn script_refuses_other_arguments() {
    for script in SCRIPTS {
        for words in [&["--helm"][..], &[""], &["sample.txt"], &["--help", "x"]] {
            let ended = run_script(script, words);
            let told = ended.told;
            assert_eq!(ended.status, Some(2), "{script} {words:?}");
            assert_eq!(ended.answers, "");
            assert_eq!(told.lines().count(), 1, "{told}");
            assert!(told.starts_with(&format!("{script}: ")), "{told}");
        }
    }
}

/// Two crates that both programs need, in two ways; one that neither needs; one
/// of the kit.
const CRATES: &str = "# NAME: what it needs
one:
two: one
other: one two
session: one two io
desk: two io
";

/// A made-up prover that writes the program of the crate in whose folder it runs.
const WRITES: &str = "to=out/${PWD##*/}; mkdir -p out; echo 'echo run' > $to; chmod +x $to";

/// A project with a copy of a script, in which nothing has to be proved.
struct Project {
    script: &'static str,
    path: PathBuf,
}

impl Project {
    fn new(script: &'static str, test: &str) -> Project {
        let name = format!("{test}-{script}-{}", std::process::id());
        let path = Path::new(env!("CARGO_TARGET_TMPDIR")).join(name);
        fs::create_dir_all(path.join("crates").join(script)).expect("a folder");
        // A process of its own writes the script: had this one written it, a child that another test
        // starts meanwhile could hold it open, and a file that is open to write does not start.
        let files = [script, STARTER].map(of_project);
        let copied = Command::new("cp").args(files).arg(&path).status();
        assert!(copied.expect("cp runs").success());
        fs::write(path.join("crates.txt"), CRATES).expect("a file");
        Project { script, path }
    }

    fn file(&self, name: &str) -> PathBuf {
        self.path.join(name)
    }

    fn command(&self, name: &str, prover: &str) -> Command {
        let mut command = Command::new(self.file(name));
        // Bash takes a function from the environment as a command.
        command
            .env("BASH_FUNC_rt%%", format!("() {{ {prover}\n}}"))
            .stdin(Stdio::null());
        command
    }

    fn start(&self, prover: &str) -> Child {
        let mut command = self.command(self.script, prover);
        let command = command.stdout(Stdio::piped()).stderr(Stdio::piped());
        command.spawn().expect("the script runs")
    }

    fn build(&self, name: &str) -> Ended {
        let mut command = self.command(name, WRITES);
        let output = command.arg("--build").output();
        Ended::of(output.expect("the script runs"))
    }

    /// Starts what is built: there is no prover.
    fn run(&self, name: &str) -> Ended {
        let output = self.command(name, "exit 1").output();
        Ended::of(output.expect("the script runs"))
    }
}

impl Drop for Project {
    fn drop(&mut self) {
        // A folder left there harms nobody.
        let _ = fs::remove_dir_all(&self.path);
    }
}

/// The prover waits after its second crate until the test has seen the line.
#[test]
fn script_shows_each_crate_when_it_is_done() {
    for script in SCRIPTS {
        let project = Project::new(script, "proving");
        let mut child = project.start(&format!(
            "echo 'crate one: modules loaded=0 checked=5'; echo 'logic=proved functions=1'
            echo fn two::f: proved; echo 'crate two: modules loaded=5 checked=2'
            echo 'logic=proved functions=2'
            while [ ! -e ../../seen ]; do sleep 0.01; done
            echo \"crate ${{PWD##*/}}: modules loaded=7 checked=1\"; echo 'logic=proved functions=3'
            echo \"rt: running out/${{PWD##*/}}; to give it other input, run that file yourself\"
            {WRITES}"
        ));
        let mut told = BufReader::new(child.stderr.take().expect("its errors")).lines();
        let mut next = || told.next().map(|line| line.expect("text"));
        let shown = |text: &str| Some(format!("{script}: {text}"));
        assert!(next().is_some_and(|line| line.starts_with(&format!("{script}: proving"))));
        assert_eq!(next(), shown("1 of 3 proved: one"));
        assert_eq!(next(), shown("2 of 3 proved: two"));
        fs::write(project.file("seen"), "").expect("a file");
        assert_eq!(next(), shown(&format!("3 of 3 proved: {script}")));
        assert_eq!(next(), None);
        let output = child.wait_with_output().expect("the script ends");
        assert_eq!(output.stdout, b"run\n");
    }
}

#[test]
fn script_shows_all_where_the_proof_fails() {
    for script in SCRIPTS {
        let project = Project::new(script, "refused");
        let child = project
            .start("echo 'crate one: modules loaded=0 checked=5'; echo error: no; echo \"rt: FAILED: ${PWD##*/}\"; exit 3");
        let ended = Ended::of(child.wait_with_output().expect("the script ends"));
        let report =
            format!("crate one: modules loaded=0 checked=5\nerror: no\nrt: FAILED: {script}\n");
        assert_eq!(ended.status, Some(1));
        assert!(ended.told.ends_with(&report), "{}", ended.told);
        assert_eq!(ended.answers, "");
    }
}

/// A line must not wait for a proof because a file was touched.
#[test]
fn script_starts_what_is_built() {
    for script in SCRIPTS {
        let project = Project::new(script, "newer");
        symlink(script, project.file("link")).expect("a link");
        project.build("link");
        assert!(project.run("link").ran_quietly());
        thread::sleep(Duration::from_millis(10));
        fs::write(project.file("crates/stray"), "").expect("a file");
        for name in [script, "link"] {
            let Ended { answers, told, .. } = project.run(name);
            assert_eq!(answers, "run\n");
            assert!(told.starts_with(&format!("{script}: crates")), "{told}");
            assert!(told.contains(&format!("./{script} --build")), "{told}");
        }
        let Ended { answers, told, .. } = project.build(script);
        assert_eq!(answers, "");
        assert!(told.starts_with(&format!("{script}: proving")), "{told}");
        assert!(project.run(script).ran_quietly());
    }
}
