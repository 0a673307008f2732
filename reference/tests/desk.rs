//! The desk: previews in numbers, by document 02's request (v), which the second
//! implementation and the desk program both have to give; how the program reads
//! and writes; and that the checks of its answers refuse wrong ones.

mod running;

use reference::call::{Code, Record};
use reference::compare::{desk_program, run};
use reference::compare_desk::{check_answers, DeskCounts};
use reference::desk;
use reference::generate::{list, Kind};
use reference::previews::with_previews;
use reference::wire::{lines, MESSAGE_BYTES, SHOWN_BYTES, WIDEST};
use running::Tested;

/// The dispatcher's question on document 01's worked line: may train 7 be called
/// back to there?
const CALLS: &str = include_str!("../../docs/session/desk-calls.txt");
const ANSWERS: &str = include_str!("../../docs/session/desk-answers.txt");

const DISPATCHER: u64 = 0;
const YARD: u64 = 70_000;
const SETTINGS: [u64; 4] = [200_000_000_000, 8_000_000_000, 26_822_400, 3726];
/// Where train 7 enters, and its entering.
const HEAD: u64 = 14_295_120_000;
const ENTRY: [u64; 5] = [7, HEAD, 2345, 1, 0];
/// The train that has just entered.
const ENTERED: Record = [
    7, 2345, 133_303, 263, HEAD, 0, 133_303, 2, 0, HEAD, 0, 0, 0, 0, 0, HEAD,
];
/// Its end after the extension by 20,000 steps, and its reach and record after
/// the report then: drive with cap 2,534.
const END: u64 = HEAD + 20_000;
const REACH: u64 = HEAD + 19_993;
const DRIVING: Record = [
    7, 2345, 133_303, 263, HEAD, 0, 0, 1, 2534, END, 0, 1, 20_000, 0, 0, END,
];
/// What is shown where there is no record to show: zeros, and drive as the order.
const BLANK: Record = [0, 0, 0, 0, 0, 0, 0, 1, 0, 0, 0, 0, 0, 0, 0, 0];
/// Columns of a record, from 0 on.
const HEAD_COLUMN: usize = 4;
const SPEED_COLUMN: usize = 5;
const ORDER_COLUMN: usize = 7;
const CAP_COLUMN: usize = 8;
const END_COLUMN: usize = 9;
const START_COLUMN: usize = 10;
const NUMBER_COLUMN: usize = 11;
const LENGTH_COLUMN: usize = 12;
const HELD_COLUMN: usize = 13;
const WANT_COLUMN: usize = 15;

fn columns(code: u64, numbers: &[u64]) -> String {
    let numbers = numbers.iter().map(|number| format!("{number:>14}"));
    format!("{code:>2}{}\n", numbers.collect::<String>())
}

/// An input line; the numbers that are not given are 0.
fn line(code: u64, numbers: &[u64], caller: u64) -> String {
    let mut all = [0; 6];
    all[..numbers.len()].copy_from_slice(numbers);
    all[5] = caller;
    columns(code, &all)
}

fn told(number: u64, values: [u64; 3], record: Record) -> String {
    columns(number, &[&values[..], &record].concat())
}

/// A refusal, or an acceptance that shows no train.
fn without_train(number: u64) -> String {
    told(number, [0; 3], BLANK)
}

fn with(mut record: Record, changes: &[(usize, u64)]) -> Record {
    for &(column, number) in changes {
        record[column] = number;
    }
    record
}

/// With this end, and no call back pending.
fn ending(record: Record, end: u64) -> Record {
    with(record, &[(END_COLUMN, end), (WANT_COLUMN, end)])
}

/// Lines, and what the desk answers to each.
#[derive(Default)]
struct Scene {
    input: String,
    answers: String,
}

impl Scene {
    /// The worked line, just opened.
    fn opened() -> Scene {
        let mut scene = Scene::default();
        scene.ask(1, &SETTINGS, DISPATCHER, without_train(0));
        scene
    }

    /// Train 7 has entered, and may drive.
    fn driving() -> Scene {
        let start = |text: &str| text.split_inclusive('\n').take(5).collect();
        Scene {
            input: start(CALLS),
            answers: start(ANSWERS),
        }
    }

    fn ask(&mut self, code: u64, numbers: &[u64], caller: u64, answer: String) {
        self.send(&line(code, numbers, caller), answer);
    }

    fn send(&mut self, line: &str, answer: String) {
        self.input.push_str(line);
        self.answers.push_str(&answer);
    }

    /// Both answer so.
    fn play(&self) {
        let input = self.input.as_bytes();
        let second = desk::run(input);
        assert_eq!(String::from_utf8_lossy(&second), self.answers);
        let program = run(&desk_program(), input).unwrap_or_else(|message| panic!("{message}"));
        assert_eq!(String::from_utf8_lossy(&program), self.answers);
    }
}

#[test]
fn example_has_the_printed_output() {
    let scene = Scene {
        input: CALLS.to_string(),
        answers: ANSWERS.to_string(),
    };
    scene.play();
}

#[test]
fn rights_are_those_of_the_call() {
    let mut scene = Scene::driving();
    for (code, numbers, callers) in [
        (53, &[7, HEAD, 0][..], [DISPATCHER, YARD, 8]),
        (53, &[8, HEAD, 0], [DISPATCHER, YARD, 7]),
        (54, &[7, 2, 1], [DISPATCHER, YARD, 8]),
        (55, &[7, REACH], [7, YARD, WIDEST]),
        (56, &[7], [7, YARD, WIDEST]),
        (57, &[7], [7, YARD, 65_536]),
        (58, &[7], [7, DISPATCHER, 70_001]),
        (52, &[8, HEAD / 2, 10, 1, 0], [8, DISPATCHER, 69_999]),
        (51, &SETTINGS, [7, YARD, WIDEST]),
    ] {
        for caller in callers {
            scene.ask(code, numbers, caller, without_train(16));
        }
    }
    scene.play();
}

/// Whether or not a line is open.
#[test]
fn opening_is_previewed_at_any_time() {
    let too_slow = [SETTINGS[0], SETTINGS[1], 0, SETTINGS[3]];
    let preview = |scene: &mut Scene| {
        scene.ask(51, &SETTINGS, DISPATCHER, without_train(0));
        scene.ask(51, &too_slow, DISPATCHER, without_train(3));
        scene.ask(51, &SETTINGS, YARD, without_train(16));
        scene.ask(51, &too_slow, YARD, without_train(16));
    };
    let mut scene = Scene::default();
    preview(&mut scene);
    // Nothing is open yet.
    scene.ask(2, &ENTRY, YARD, without_train(2));
    scene.play();
    let mut scene = Scene::driving();
    preview(&mut scene);
    scene.ask(1, &SETTINGS, DISPATCHER, without_train(2));
    // Train 7 is still there.
    scene.ask(5, &[7, END], DISPATCHER, told(0, [0; 3], DRIVING));
    scene.play();
}

#[test]
fn other_calls_are_2_before_the_opening_whoever_asks() {
    let mut scene = Scene::default();
    for code in 52..=58 {
        let numbers = if code == 52 { &ENTRY[..] } else { &[7] };
        for caller in [DISPATCHER, 7, YARD, WIDEST] {
            scene.ask(code, numbers, caller, without_train(2));
        }
    }
    scene.play();
}

#[test]
fn entering_shows_the_train_and_lets_none_in() {
    let mut scene = Scene::opened();
    let entered = told(0, [133_303, 263, HEAD], ENTERED);
    for _ in 0..2 {
        scene.ask(52, &ENTRY, YARD, entered.clone());
    }
    scene.ask(56, &[7], DISPATCHER, without_train(8));
    scene.ask(2, &ENTRY, YARD, entered);
    scene.ask(52, &ENTRY, YARD, without_train(5));
    scene.play();
}

/// There is another train behind it, and that one is not shown either.
#[test]
fn taking_off_shows_no_train() {
    let mut scene = Scene::opened();
    let (first, behind) = (100_000_000_000, 1_000_000_000);
    let entered = ending(with(ENTERED, &[(HEAD_COLUMN, first)]), first);
    let entry = [7, first, 2345, 1, 0];
    scene.ask(2, &entry, YARD, told(0, [133_303, 263, first], entered));
    // 138 cycles at 100 ft.
    let entered = [
        9, 100, 162_039, 1174, behind, 0, 162_039, 2, 0, behind, 5, 5, 0, 0, 0, behind,
    ];
    let entry = [9, behind, 100, 2, 5];
    scene.ask(2, &entry, YARD, told(0, [162_039, 1174, behind], entered));
    scene.ask(58, &[9], YARD, without_train(15));
    for code in [58, 58, 8] {
        scene.ask(code, &[7], YARD, without_train(0));
    }
    scene.ask(58, &[7], YARD, without_train(8));
    let held = with(entered, &[(HELD_COLUMN, 1)]);
    scene.ask(56, &[9], DISPATCHER, told(0, [0; 3], held));
    scene.ask(58, &[9], YARD, without_train(0));
    scene.play();
}

#[test]
fn train_that_may_drive_is_15_and_not_shown() {
    let mut scene = Scene::driving();
    scene.ask(58, &[7], YARD, without_train(15));
    scene.ask(8, &[7], YARD, without_train(15));
    scene.play();
}

#[test]
fn repeated_extension_shows_the_record_as_it_is() {
    let mut scene = Scene::driving();
    scene.ask(54, &[7, 1, 20_000], 7, told(0, [END, 1, 0], DRIVING));
    scene.ask(54, &[7, 1, 20_001], 7, without_train(12));
    scene.ask(54, &[7, 0, 1], 7, without_train(10));
    scene.play();
}

#[test]
fn previewed_extension_uses_no_number() {
    let extended = |length| {
        let changes = [(NUMBER_COLUMN, 2), (LENGTH_COLUMN, length)];
        let record = ending(with(DRIVING, &changes), END + length);
        told(0, [END + length, 0, 0], record)
    };
    let mut scene = Scene::driving();
    scene.ask(54, &[7, 2, 1], 7, extended(1));
    scene.ask(54, &[7, 2, 30], 7, extended(30));
    scene.ask(4, &[7, 2, 500], 7, extended(500));
    scene.play();
}

/// The starting number stays beside the last accepted one.
#[test]
fn record_keeps_the_starting_number() {
    let mut scene = Scene::opened();
    let mut record = with(ENTERED, &[(START_COLUMN, 5), (NUMBER_COLUMN, 5)]);
    let entry = [7, HEAD, 2345, 1, 5];
    scene.ask(52, &entry, YARD, told(0, [133_303, 263, HEAD], record));
    scene.ask(2, &entry, YARD, told(0, [133_303, 263, HEAD], record));
    scene.ask(54, &[7, 5, 3], 7, without_train(11));
    let changes = [(NUMBER_COLUMN, 9), (LENGTH_COLUMN, 3)];
    record = ending(with(record, &changes), HEAD + 3);
    scene.ask(4, &[7, 9, 3], 7, told(0, [HEAD + 3, 0, 0], record));
    scene.play();
}

#[test]
fn hold_shows_its_mark_and_the_order_already_given() {
    let held = with(DRIVING, &[(HELD_COLUMN, 1)]);
    let driven = told(0, [1, 2534, REACH], DRIVING);
    let braked = with(held, &[(ORDER_COLUMN, 2), (CAP_COLUMN, 0)]);
    let mut scene = Scene::driving();
    scene.ask(56, &[7], DISPATCHER, told(0, [0; 3], held));
    scene.ask(57, &[7], DISPATCHER, told(0, [0; 3], DRIVING));
    // Nobody holds it.
    scene.ask(53, &[7, HEAD, 0], 7, driven);
    scene.ask(6, &[7], DISPATCHER, told(0, [0; 3], held));
    scene.ask(57, &[7], DISPATCHER, told(0, [0; 3], DRIVING));
    // Nobody lifts the hold.
    scene.ask(53, &[7, HEAD, 0], 7, told(0, [2, 0, HEAD], braked));
    scene.play();
}

/// Braked while it moves, the train would be marked with the penalty brake. It
/// then reports another head, behind the one previewed.
#[test]
fn previewed_report_closes_no_cycle() {
    let (head, speed) = (HEAD + 2534, 2534);
    let braked = [
        7, 2345, 133_303, 263, head, speed, 0, 2, 0, END, 0, 1, 20_000, 0, 1, END,
    ];
    let mut scene = Scene::driving();
    for _ in 0..2 {
        scene.ask(53, &[7, head, speed], 7, told(0, [2, 0, REACH], braked));
    }
    scene.ask(53, &[7, head + 1, speed], 7, without_train(9));
    scene.ask(3, &[7, HEAD, 0], 7, told(0, [1, 2534, REACH], DRIVING));
    scene.ask(3, &[7, head, speed], 7, told(0, [2, 0, REACH], braked));
    scene.play();
}

#[test]
fn previewed_call_back_leaves_the_end() {
    let mut scene = Scene::driving();
    let called = told(0, [0; 3], ending(DRIVING, REACH));
    scene.ask(55, &[7, HEAD - 1], DISPATCHER, without_train(14));
    scene.ask(55, &[7, END + 1], DISPATCHER, without_train(14));
    scene.ask(55, &[7, REACH], DISPATCHER, called.clone());
    scene.ask(55, &[7, END], DISPATCHER, told(0, [0; 3], DRIVING));
    scene.ask(54, &[7, 1, 20_000], 7, told(0, [END, 1, 0], DRIVING));
    scene.ask(5, &[7, REACH], DISPATCHER, called);
    scene.ask(55, &[7, END], DISPATCHER, without_train(14));
    scene.play();
}

/// Nothing is pending after it, so the extension is taken.
#[test]
fn previewed_call_back_leaves_none_pending() {
    let wanted = |place| told(0, [0; 3], with(DRIVING, &[(WANT_COLUMN, place)]));
    let mut scene = Scene::driving();
    scene.ask(55, &[7, REACH - 1], DISPATCHER, wanted(REACH - 1));
    scene.ask(55, &[7, HEAD], DISPATCHER, wanted(HEAD));
    let extended = with(DRIVING, &[(NUMBER_COLUMN, 2), (LENGTH_COLUMN, 1)]);
    let extended = told(0, [END + 1, 0, 0], ending(extended, END + 1));
    scene.ask(54, &[7, 2, 1], 7, extended);
    scene.ask(5, &[7, HEAD], DISPATCHER, wanted(HEAD));
    scene.ask(54, &[7, 2, 1], 7, without_train(17));
    scene.play();
}

/// The last number of the record is the wanted place until the call back is done.
#[test]
fn previews_show_a_pending_call_back_as_it_would_be() {
    let place = HEAD + 15_000;
    let pending = with(DRIVING, &[(WANT_COLUMN, place)]);
    let mut scene = Scene::driving();
    scene.ask(5, &[7, place], DISPATCHER, told(0, [0; 3], pending));
    let held = with(pending, &[(HELD_COLUMN, 1)]);
    scene.ask(56, &[7], DISPATCHER, told(0, [0; 3], held));
    scene.ask(57, &[7], DISPATCHER, told(0, [0; 3], pending));
    scene.ask(54, &[7, 1, 20_000], 7, told(0, [END, 1, 0], pending));
    let at_once = told(0, [0; 3], ending(DRIVING, REACH));
    scene.ask(55, &[7, REACH], DISPATCHER, at_once);
    let nearer = told(0, [0; 3], with(DRIVING, &[(WANT_COLUMN, HEAD + 1)]));
    scene.ask(55, &[7, HEAD + 1], DISPATCHER, nearer);
    scene.ask(55, &[7, HEAD - 1], DISPATCHER, without_train(14));
    // Reported so, it drives with 293, and its end is there.
    let done = [
        (HEAD_COLUMN, HEAD + 1000),
        (SPEED_COLUMN, 1500),
        (CAP_COLUMN, 293),
    ];
    let done = told(
        0,
        [1, 293, HEAD + 14_999],
        ending(with(DRIVING, &done), place),
    );
    scene.ask(53, &[7, HEAD + 1000, 1500], 7, done);
    scene.ask(6, &[7], DISPATCHER, told(0, [0; 3], held));
    scene.play();
}

#[test]
fn unreadable_lines_are_1_and_show_no_train() {
    let hold = line(56, &[7], DISPATCHER);
    let mut unreadable = vec![
        "\n".to_string(),
        hold.replace("56", "5 "),
        hold.replace("56", " 56"),
        hold.replace("56", "056"),
        hold.replace(" 7 ", "07 "),
        hold.replace('\n', " \n"),
        hold.replace('\n', "\r\n"),
        line(56, &[7, 1], DISPATCHER),
        line(
            51,
            &[SETTINGS[0], SETTINGS[1], SETTINGS[2], SETTINGS[3], 1],
            DISPATCHER,
        ),
        line(53, &[7, HEAD, 0, 1], 7),
        line(54, &[7, 2, 1, 1], 7),
        line(55, &[7, REACH, 1], DISPATCHER),
        line(57, &[7, 0, 0, 0, 1], DISPATCHER),
        line(58, &[7, 1], YARD),
    ];
    for code in [0, 9, 10, 16, 49, 50, 59, 60, 61, 68, 99] {
        unreadable.push(line(code, &[7], DISPATCHER));
    }
    let mut scene = Scene::driving();
    let held = with(DRIVING, &[(HELD_COLUMN, 1)]);
    for line in unreadable {
        scene.send(&line, without_train(1));
        scene.send(&hold, told(0, [0; 3], held));
    }
    scene.send(hold.trim_end(), without_train(1));
    scene.play();
}

/// Codes 1 to 8 are the session's, refusals too.
#[test]
fn refused_calls_show_no_train() {
    let mut scene = Scene::driving();
    scene.ask(1, &SETTINGS, DISPATCHER, without_train(2));
    scene.ask(2, &ENTRY, YARD, without_train(5));
    scene.ask(3, &[7, HEAD - 1, 0], 7, without_train(9));
    scene.ask(3, &[7, HEAD, 0], DISPATCHER, without_train(16));
    scene.ask(4, &[7, 1, 1], 7, without_train(12));
    scene.ask(5, &[7, HEAD - 1], DISPATCHER, without_train(14));
    scene.ask(6, &[8], DISPATCHER, without_train(8));
    scene.ask(7, &[7], 7, without_train(16));
    scene.ask(8, &[7], YARD, without_train(15));
    scene.play();
}

// ---- the checks of its answers

/// The example with this in one line of its answers in place of that, and why
/// its answers are refused.
fn refused_with(index: usize, that: &str, this: &str) -> (usize, String) {
    let mut answers: Vec<String> = ANSWERS.lines().map(|line| format!("{line}\n")).collect();
    assert!(answers[index].contains(that), "{}", answers[index]);
    answers[index] = answers[index].replace(that, this);
    let output = answers.concat();
    let mut counts = DeskCounts::default();
    let failure = check_answers(CALLS.as_bytes(), output.as_bytes(), &mut counts)
        .expect_err("the answers are wrong");
    (failure.line, failure.why)
}

#[test]
fn example_keeps_what_it_told() {
    let mut counts = DeskCounts::default();
    let checked = check_answers(CALLS.as_bytes(), ANSWERS.as_bytes(), &mut counts);
    assert_eq!(checked, Ok(()));
    assert_eq!([counts.lines, counts.calls.lines], [8, 6]);
    assert_eq!(counts.by_code(Code::CallBack), 2);
    assert_eq!([counts.by_number(0), counts.by_number(14)], [2, 0]);
    assert_eq!(counts.pending(Code::CallBack), 1);
    assert_eq!(counts.foretold(Code::CallBack).accepted, 1);
}

/// The record of the call back, which its preview had otherwise.
#[test]
fn call_that_was_told_otherwise_is_refused() {
    let otherwise = (8, "its preview told otherwise".to_string());
    for index in [6, 7] {
        let found = refused_with(index, "14295139993", "14295139994");
        assert_eq!(found, otherwise);
    }
}

/// The line numbers are those of the whole list.
#[test]
fn call_that_a_session_answers_otherwise_is_refused() {
    let found = refused_with(7, " 0             0", "14             0");
    let why = "without its previews, the answers differ".to_string();
    assert_eq!(found, (8, why));
}

#[test]
fn answer_that_cannot_be_read_is_refused() {
    let unreadable = "the answer line is unreadable".to_string();
    assert_eq!(refused_with(3, "\n", ""), (4, unreadable.clone()));
    assert_eq!(refused_with(7, "\n", " \n"), (8, unreadable));
}

// ---- how the program reads and writes

const OPENING: &[u8] = CALLS.as_bytes().split_at(MESSAGE_BYTES + 1).0;
const ENTERING: &[u8] = CALLS
    .as_bytes()
    .split_at(MESSAGE_BYTES + 1)
    .1
    .split_at(MESSAGE_BYTES + 1)
    .0;

fn tested() -> Tested {
    Tested {
        name: "desk",
        path: desk_program(),
        lines: [OPENING, ENTERING],
        answers: [without_train(0), told(0, [133_303, 263, HEAD], ENTERED)],
        unreadable: without_train(1),
    }
}

#[test]
fn answer_lines_have_their_length() {
    assert_eq!(SHOWN_BYTES, 268);
    assert!(lines(ANSWERS.as_bytes()).all(|line| line.len() == SHOWN_BYTES + 1));
}

#[test]
fn empty_input_has_empty_output() {
    assert_eq!(tested().output_of(b""), "");
}

#[test]
fn whole_lines_are_answered_before_it_waits() {
    tested().answers_whole_lines_before_it_waits();
}

#[test]
fn line_may_come_byte_by_byte() {
    tested().takes_a_line_byte_by_byte();
}

#[test]
fn every_line_feed_of_a_read_is_answered() {
    tested().answers_every_line_feed_of_a_read();
}

#[test]
fn pieces_give_the_same_output_as_the_whole() {
    for kind in [Kind::Garbage, Kind::Tight, Kind::Openings] {
        let input = with_previews(&list(11, kind), 11);
        tested().answers_pieces_as_the_whole(&input, &desk::run(&input));
    }
}

#[test]
fn missing_last_line_feed_is_1() {
    tested().answers_1_where_the_last_line_feed_is_missing();
}

#[test]
fn very_long_line_is_answered_once_with_little_memory() {
    tested().answers_a_very_long_line_once_with_little_memory();
}

#[test]
fn closed_output_ends_the_program() {
    tested().ends_when_its_output_is_closed();
}

#[test]
fn full_output_ends_the_program() {
    tested().ends_when_its_output_is_full();
}

#[test]
fn failed_read_is_told() {
    tested().tells_of_a_failed_read();
}

#[test]
fn line_before_a_failed_read_is_not_answered() {
    tested().leaves_the_line_before_a_failed_read_unanswered();
}

#[test]
fn failed_write_is_told() {
    tested().tells_of_a_failed_write();
}
