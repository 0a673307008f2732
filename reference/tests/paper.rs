//! The papers' own examples: document 01's worked session and starred values, as
//! far as document 02, (i), has them worked out again, and an example for (ii).
//! `docs/session` has both sessions, document 01's with the report that is taken
//! and both call-back examples, of which (vi) takes the second as pending.

use reference::brake::{application_cycles, full_brake, sheet_cycles, Brake};
use reference::call::{Answer, Call, Entry, Refusal, Settings};
use reference::compare;
use reference::line::Line;
use reference::motion::{greatest_cap, stop_travel, Bounds, Motion};
use reference::ranges::consists;
use reference::session;
use reference::wire::read_message;

const CALLS: &str = include_str!("../../docs/session/calls.txt");
const ANSWERS: &str = include_str!("../../docs/session/answers.txt");

fn calls() -> Vec<Call> {
    let message = |line: &str| read_message(line.as_bytes()).expect("a call");
    CALLS.lines().map(|line| message(line).call).collect()
}

fn settings() -> Settings {
    match calls()[0] {
        Call::Open(settings) => settings,
        call => panic!("{call:?}"),
    }
}

fn entry() -> Entry {
    match calls()[1] {
        Call::Enter(entry) => entry,
        call => panic!("{call:?}"),
    }
}

/// The table after so many lines of the session.
fn line_after(count: usize) -> Line {
    let mut line = Line::open(settings()).expect("the settings are in range");
    for &call in &calls()[1..count] {
        line.call(call);
    }
    line
}

#[test]
fn worked_session_has_the_printed_output() {
    let output = session::run(CALLS.as_bytes());
    assert_eq!(String::from_utf8_lossy(&output), ANSWERS);
}

#[test]
fn program_gives_the_printed_output() {
    let output = compare::run(&compare::program(), CALLS.as_bytes());
    let output = output.unwrap_or_else(|message| panic!("{message}"));
    assert_eq!(String::from_utf8_lossy(&output), ANSWERS);
}

/// README's blocks: the crates, a report's way, the session's two, and the
/// desk's calls.
fn readme_blocks() -> [&'static str; 5] {
    let readme = include_str!("../../README.md");
    let blocks: Vec<&str> = readme.split("```\n").skip(1).step_by(2).collect();
    blocks.try_into().expect("five blocks")
}

#[test]
fn readme_prints_the_worked_session() {
    let [_, _, calls, answers, _] = readme_blocks();
    assert_eq!([calls, answers], [CALLS, ANSWERS]);
}

#[test]
fn readme_prints_the_calls_at_the_desk() {
    let [_, _, _, _, calls] = readme_blocks();
    assert_eq!(calls, include_str!("../../docs/session/desk-calls.txt"));
}

/// From the session's eighth line to its answer.
#[test]
fn readme_shows_the_way_of_a_report() {
    let [_, way, _, _, _] = readme_blocks();
    assert_eq!(way.lines().next(), CALLS.lines().nth(7));
    assert_eq!(way.lines().last(), ANSWERS.lines().nth(7));
}

/// Document 02, (ii): after the brake at speed 2,534 the train brakes on at 100,
/// where document 01 had drive with 2,176. At a stand it drives.
#[test]
fn penalty_brake_stays_on_until_the_train_stands() {
    let calls = include_bytes!("../../docs/session/penalty-calls.txt");
    let answers = include_str!("../../docs/session/penalty-answers.txt");
    let program = compare::run(&compare::program(), calls);
    let program = program.unwrap_or_else(|message| panic!("{message}"));
    for output in [session::run(calls), program] {
        assert_eq!(String::from_utf8_lossy(&output), answers);
    }
}

/// Under the order to drive, and under the order to brake after it.
#[test]
fn call_back_below_the_reach_is_pending() {
    let Call::CallBack { id, place } = calls()[8] else {
        panic!("no call back");
    };
    for count in [6, 8] {
        let mut line = line_after(count);
        let end = line.trains()[0].end;
        assert_eq!(line.call_back(id, place - 1), Answer::DONE);
        let train = line.trains()[0];
        assert_eq!((train.end, train.want), (end, Some(place - 1)));
        assert_eq!(line.call(calls()[4]), Answer::accepted([end, 1, 0]));
        assert_eq!(line.call_back(id, place), Answer::DONE);
        let train = line.trains()[0];
        assert_eq!((train.end, train.want), (place, None));
        // The repeat of the extension is answered with the end of now.
        assert_eq!(line.call(calls()[4]), Answer::accepted([place, 1, 0]));
    }
}

#[test]
fn application_cycles_are_the_starred_ones() {
    let cycles = [1, 2345, 10_000].map(application_cycles);
    assert_eq!(cycles, [123, 504, 1961]);
}

#[test]
fn length_takes_the_entry_of_the_next_multiple_of_20() {
    let cycles = [1, 20, 21, 2345, 2360, 9980, 9981, 10_000].map(sheet_cycles);
    assert_eq!(cycles, [126, 126, 129, 506, 506, 1956, 1961, 1961]);
}

#[test]
fn full_brakes_are_the_starred_ones() {
    let full = [1, 2, 3].map(full_brake);
    assert_eq!(full, [Some(133_303), Some(162_039), Some(87_021)]);
}

#[test]
fn stop_travels_are_the_starred_ones() {
    let brake = Brake {
        full: 133_303,
        growth: 264,
    };
    let travels = [0, 1, 100, 264, 265].map(|speed| stop_travel(speed, 0, brake));
    assert_eq!(travels, [0, 3, 238, 792, 797]);
}

#[test]
fn cap_on_20000_free_steps_is_the_printed_one() {
    let brake = Brake::of_consist(2345, 1).expect("the consist is in range");
    let standing = Motion {
        head: 0,
        speed: 0,
        level: brake.full,
    };
    let bounds = Bounds {
        ceiling: 26_822_400,
        traction: 3726,
        end: 20_000,
    };
    let found = greatest_cap(standing, brake, bounds);
    assert_eq!(found, Some((2534, 19_993)));
}

#[test]
fn consist_out_of_range_is_refused_by_4() {
    for (feet, class) in [(0, 1), (10_001, 1), (2345, 0), (2345, 4)] {
        let mut line = Line::open(settings()).expect("the settings are in range");
        let answer = line.enter(Entry {
            feet,
            class,
            ..entry()
        });
        assert_eq!(
            answer,
            Answer::refused(Refusal::Entry),
            "{feet} ft, class {class}"
        );
    }
}

#[test]
fn held_count_is_the_printed_one() {
    let brake = Brake::of_consist(2345, 1).expect("the consist is in range");
    assert_eq!(brake.held_count(26_822_400), 710);
}

#[test]
fn growth_and_counts_stay_in_the_stated_bounds() {
    let brakes: Vec<Brake> = consists()
        .filter_map(|(feet, class)| Brake::of_consist(feet, class))
        .collect();
    assert_eq!(brakes.len(), 30_000);
    let growths = brakes.iter().map(|brake| brake.growth);
    assert_eq!(growths.clone().min(), Some(44));
    assert_eq!(growths.max(), Some(1286));
    let applications = brakes.iter().map(|brake| brake.full.div_ceil(brake.growth));
    assert_eq!(applications.max(), Some(1990));
}
