//! How the script `keep` starts the keeper.

use std::fs;
use std::os::unix::fs::symlink;
use std::path::{Path, PathBuf};
use std::process::{Command, Output};

const ROOT: &str = concat!(env!("CARGO_MANIFEST_DIR"), "/..");
const CALLS: &str = concat!(env!("CARGO_MANIFEST_DIR"), "/../docs/session/calls.txt");
const ANSWERS: &[u8] = include_bytes!("../../docs/session/answers.txt");

/// A folder of its own, with a link to the script in it.
fn folder(name: &str) -> PathBuf {
    let path = Path::new(env!("CARGO_TARGET_TMPDIR")).join(name);
    // One that an earlier run left.
    let _ = fs::remove_dir_all(&path);
    fs::create_dir_all(&path).expect("a folder");
    let script = fs::canonicalize(Path::new(ROOT).join("keep")).expect("the script");
    symlink(script, path.join("keep")).expect("a link");
    path
}

fn run(folder: &Path, command: &str) -> (Option<i32>, Vec<u8>, String) {
    let mut shell = Command::new("bash");
    let shell = shell.args(["-c", command]).current_dir(folder);
    let Output {
        status,
        stdout,
        stderr,
    } = shell.env("CALLS", CALLS).output().expect("it runs");
    let told = String::from_utf8(stderr).expect("text");
    (status.code(), stdout, told)
}

#[test]
fn script_keeps_a_line() {
    let folder = folder("script");
    let (status, answers, told) = run(&folder, "./keep line < \"$CALLS\"");
    assert_eq!((status, &answers[..]), (Some(0), ANSWERS), "{told}");
    let (status, looked, told) = run(&folder, "./keep --check line <&-");
    assert_eq!(status, Some(0), "{told}");
    assert_eq!(looked, b"10 calls, all as answered; not answered yet: 0\n");
    let (status, looked, told) = run(&folder, "./keep --status line");
    assert_eq!(status, Some(0), "{told}");
    assert!(looked.starts_with(b"trains on the line: 1\n"));
}

/// The library would open /dev/null in the place of an end that is closed.
#[test]
fn script_needs_both_ends() {
    let folder = folder("ends");
    for ends in ["<&-", "< /dev/null >&-"] {
        let (status, _, told) = run(&folder, &format!("./keep line {ends}"));
        assert_eq!(status, Some(1), "{ends}: {told}");
        assert!(told.contains("is closed"), "{ends}: {told}");
        assert!(!folder.join("line").exists(), "{ends}");
    }
}

/// README's page has a row for each message, in the words of the sources.
#[test]
fn page_has_the_messages() {
    let readme = fs::read_to_string(Path::new(ROOT).join("README.md")).expect("README");
    let (_, table) = readme.split_once("| Message |").expect("the table");
    let (table, _) = table.split_once("\n\n").expect("its end");
    let files = fs::read_dir(Path::new(ROOT).join("keeper/src")).expect("the sources");
    let mut sources = fs::read_to_string(Path::new(ROOT).join("keep")).expect("the script");
    for file in files {
        sources += &fs::read_to_string(file.expect("a file").path()).expect("text");
    }
    let sources = sources.replace("{CALLS}", "calls.log");
    let sources = sources.replace("{ANSWERS}", "answers.log");
    let mut count = 0;
    for row in table.lines().skip(2) {
        let message = row.split('|').nth(1).expect("a cell");
        // Between backticks; what stands for something else, or is the system's, is left out.
        for text in message.split('`').skip(1).step_by(2) {
            let text = [
                "No space left on device",
                "No such file or directory",
                "FILE:",
                "FILE",
                "FOLDER",
                " N",
            ]
            .iter()
            .fold(text.to_string(), |text, word| text.replace(word, "..."));
            for part in text.split("...").map(str::trim) {
                assert!(sources.contains(part), "{part}");
                count += usize::from(part.len() > 5);
            }
        }
    }
    assert!(count >= 18, "{count} messages");
}

#[test]
fn script_has_a_help() {
    let folder = folder("help");
    let (status, help, told) = run(&folder, "./keep --help");
    assert_eq!((status, &told[..]), (Some(0), ""));
    let help = String::from_utf8(help).expect("text");
    for word in [
        "usage: ./keep FOLDER",
        "--check",
        "--status",
        "README.md",
        "Exit status",
    ] {
        assert!(help.contains(word), "{word}: {help}");
    }
}

#[test]
fn script_refuses_other_arguments() {
    let folder = folder("arguments");
    for words in ["", "''", "--helm", "--check", "one two", "--status one two"] {
        let (status, answers, told) = run(&folder, &format!("./keep {words} < /dev/null"));
        assert_eq!((status, answers), (Some(2), Vec::new()), "{words}: {told}");
        assert!(told.contains("give FOLDER"), "{words}: {told}");
    }
}
