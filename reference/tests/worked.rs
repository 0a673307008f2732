//! The worked list and the papers' sessions. The checker has computed them from
//! the pages in `crates/worked/specs` and `crates/papers/specs`; the gate runs the
//! programs on the files. Page and files have to be the same.

use std::fs;
use std::path::PathBuf;

use reference::compare::ANSWERS;
use reference::session;
use reference::spoil::READ_BYTES;
use reference::wire::ANSWER_BYTES;

const DESK_CALLS: &str = include_str!("../../docs/session/desk-calls.txt");
const DESK_ANSWERS: &str = include_str!("../../docs/session/desk-answers.txt");

fn of_crates(file: &str) -> String {
    let path: PathBuf = [env!("CARGO_MANIFEST_DIR"), "../crates", file]
        .iter()
        .collect();
    fs::read_to_string(&path).unwrap_or_else(|error| panic!("{}: {error}", path.display()))
}

/// The input lines and the answers on a page, in order.
fn page(file: &str) -> (Vec<String>, Vec<String>) {
    let text = of_crates(file);
    text.lines().flat_map(exchanges).unzip()
}

/// What a line of a page has: `line "INPUT" "ANSWER"`, the same in
/// `replicate COUNT (...)`, or neither.
fn exchanges(line: &str) -> Vec<(String, String)> {
    let texts: Vec<&str> = line.split('"').collect();
    let (input, answer, count) = match texts[..] {
        [_, input, " ", answer, ""] => (input, answer, 1),
        [start, input, " ", answer, ")"] => (input, answer, count_in(start)),
        _ => return Vec::new(),
    };
    vec![(input.to_owned(), answer.to_owned()); count]
}

fn count_in(start: &str) -> usize {
    let count = start
        .trim()
        .strip_prefix("∷ replicate ")
        .and_then(|rest| rest.strip_suffix(" (line"))
        .and_then(|count| count.parse().ok());
    count.unwrap_or_else(|| panic!("no count in {start:?}"))
}

/// Document 01's session, then the example of a penalty brake, then the one at
/// the desk.
#[test]
fn sessions_are_their_page() {
    let (inputs, answers) = page("papers/specs/Paper.antt");
    let printed = |lines: Vec<String>| lines.join("\n") + "\n";
    let calls = [
        include_str!("../../docs/session/calls.txt"),
        include_str!("../../docs/session/penalty-calls.txt"),
        DESK_CALLS,
    ];
    let given = [
        include_str!("../../docs/session/answers.txt"),
        include_str!("../../docs/session/penalty-answers.txt"),
        DESK_ANSWERS,
    ];
    assert_eq!(printed(inputs), calls.concat());
    assert_eq!(printed(answers), given.concat());
}

/// The gate runs the desk on its example.
#[test]
fn files_of_the_desk_are_its_session() {
    assert_eq!(of_crates("desk/stdin"), DESK_CALLS);
    assert_eq!(of_crates("desk/stdout"), DESK_ANSWERS);
}

#[test]
fn files_are_the_page() {
    let (inputs, answers) = page("worked/specs/Worked.antt");
    assert!(inputs.len() > 300, "{} lines on the page", inputs.len());
    // The last line has no line feed.
    assert_eq!(of_crates("session/stdin"), inputs.join("\n"));
    assert_eq!(of_crates("session/stdout"), answers.join("\n") + "\n");
}

#[test]
fn second_implementation_gives_the_answers() {
    let output = session::run(of_crates("session/stdin").as_bytes());
    assert_eq!(
        String::from_utf8_lossy(&output),
        of_crates("session/stdout")
    );
}

#[test]
fn input_needs_several_reads_and_each_answer_comes_up() {
    assert!(of_crates("session/stdin").len() > 4 * READ_BYTES);
    let output = of_crates("session/stdout");
    for number in 0..ANSWERS {
        let start = format!("{number:2} ");
        assert!(
            output.lines().any(|line| line.starts_with(&start)),
            "answer {number}"
        );
    }
}

/// A program that writes no more than a read for a read would lose some.
#[test]
fn answers_to_one_read_are_longer_than_a_read() {
    let input = of_crates("session/stdin");
    let mut reads = input.as_bytes().chunks(READ_BYTES);
    let feeds = |read: &[u8]| read.iter().filter(|&&byte| byte == b'\n').count();
    assert!(reads.any(|read| feeds(read) * (ANSWER_BYTES + 1) > READ_BYTES));
}
