//! The benchmark measures what it says: searches, in which a report gets a cap
//! above 0 and below the greatest allowed, and each kind of line with its answer
//! and as many trains on the line as its row says.

use reference::bench::{
    generated, slowing_bound, standing_bound, worst_bound, Maker, Measured, SETTINGS,
};
use reference::call::{Answer, Refusal};
use reference::claim::check;
use reference::generate::Kind;
use reference::kinds::{cheap_mixed, Case, CASES, ONE_BY_ONE, TIMED};
use reference::line::MOST_TRAINS;
use reference::motion::Order;
use reference::session::{run, Session};
use reference::wire::{lines, read_answer, read_message, whole_line};
use std::collections::HashSet;

const LINES: usize = 1000;
/// So many trains are on the line.
const SOME: usize = 8;

/// Caps of that kind in a list.
fn searched(input: &[u8]) -> u64 {
    let reached = check(input, &run(input));
    reached.expect("the claim holds").orders.between
}

#[test]
fn measured_reports_search_for_a_cap() {
    let makes: [Maker; 3] = [worst_bound, slowing_bound, standing_bound];
    for make in makes {
        let measured = make(LINES);
        assert_eq!(measured.lines, LINES);
        let count = searched(&measured.whole) - searched(&measured.lead);
        assert_eq!(count, LINES as u64);
    }
}

/// The answers to an input, and how many trains it leaves on the line.
fn answered(input: &[u8]) -> (Vec<Answer>, usize) {
    let (mut session, mut output) = (Session::default(), Vec::new());
    session.feed(input, &mut output);
    let answers = lines(&output)
        .map(|line| whole_line(line).and_then(read_answer).expect("an answer"))
        .collect();
    let trains = session.line().map_or(0, |line| line.trains().len());
    (answers, trains)
}

/// The answers to the measured lines. Before and after them so many trains are on
/// the line; the lead-in has no refused line.
fn measured_answers(measured: &Measured, trains: usize) -> Vec<Answer> {
    let (lead, before) = answered(&measured.lead);
    let (mut all, after) = answered(&measured.whole);
    assert_eq!([before, after], [trains; 2]);
    assert!(lead.iter().all(Answer::is_accepted));
    let rest = all.split_off(lead.len());
    assert_eq!(all, lead);
    assert_eq!(rest.len(), measured.lines);
    rest
}

#[test]
fn each_kind_of_line_gets_its_answer() {
    for case in CASES {
        let number = case.refusal.map_or(0, Refusal::number);
        for &trains in case.trains {
            let measured = case.measured(trains, TIMED);
            assert_eq!(measured.lines, TIMED);
            let answers = measured_answers(&measured, trains);
            let is_right = |answer: &Answer| answer.number == number;
            assert!(answers.iter().all(is_right), "{}", case.title(trains));
        }
    }
}

#[test]
fn each_refusal_has_a_kind_of_line() {
    for &why in Refusal::ALL {
        let is_refused = |case: &Case| case.refusal == Some(why);
        assert!(CASES.iter().any(is_refused), "{why:?}");
    }
}

#[test]
fn each_kind_of_line_has_its_own_name() {
    let names: HashSet<String> = CASES.iter().map(|case| case.title(SOME)).collect();
    assert_eq!(names.len(), CASES.len());
}

/// Lines of the kind with this name, with some trains on the line.
fn some_of(name: &str) -> Measured {
    let title = format!("{name}, {SOME} trains");
    let case = CASES.iter().find(|case| case.title(SOME) == title);
    case.expect("a kind").measured(SOME, LINES)
}

/// The second number of an accepted extension is 1 for a repeat.
#[test]
fn measured_extensions_are_new_or_repeats() {
    for (name, repeat) in [("extend, new number", 0), ("extend, repeat", 1)] {
        let answers = measured_answers(&some_of(name), SOME);
        assert!(answers.iter().all(|answer| answer.values[1] == repeat));
    }
}

#[test]
fn reports_at_a_stand_get_their_orders() {
    let orders = [
        ("no track", Order::Drive(0)),
        ("free track", Order::Drive(SETTINGS.traction)),
        ("held", Order::Brake),
    ];
    for (name, order) in orders {
        let answers = measured_answers(&some_of(&format!("report at a stand, {name}")), SOME);
        let is_right = |answer: &Answer| answer.values[..2] == order.numbers();
        assert!(answers.iter().all(is_right), "{name}");
    }
}

/// An entering is answered with the full brake first, a taking off with zeros.
#[test]
fn trains_are_taken_off_and_enter_in_turn() {
    let answers = measured_answers(&some_of("take off and enter"), SOME);
    for pair in answers.chunks(2) {
        assert_eq!(pair[0], Answer::DONE);
        assert!(pair[1].values[0] > 0);
    }
}

#[test]
fn unreadable_lines_have_as_many_bytes_as_they_say() {
    for bytes in [5, 86, 88, 200] {
        let measured = some_of(&format!("unreadable: {bytes} bytes"));
        let rest = &measured.whole[measured.lead.len()..];
        assert!(lines(rest).all(|line| line.len() == bytes));
    }
}

#[test]
fn mixed_cheap_lines_are_of_four_kinds() {
    let kinds = [
        Answer::DONE,
        Answer::DONE,
        Answer::refused(Refusal::NoSuchTrain),
        Answer::refused(Refusal::Unreadable),
    ];
    let answers = measured_answers(&cheap_mixed(LINES), MOST_TRAINS);
    assert_eq!(answers, kinds.repeat(LINES / 4));
}

/// Otherwise the benchmark would wait for an answer that does not come.
#[test]
fn lines_sent_one_by_one_are_whole() {
    for (name, make) in ONE_BY_ONE {
        let measured = make(LINES);
        assert_eq!(measured.lines, LINES);
        let is_call = |line| whole_line(line).and_then(read_message).is_some();
        assert!(lines(&measured.whole).all(is_call), "{name}");
    }
}

#[test]
fn generated_lists_are_two_of_each_kind() {
    let lists = generated();
    let names: HashSet<&String> = lists.iter().map(|(name, _)| name).collect();
    assert_eq!(names.len(), 2 * Kind::ALL.len());
    for (name, measured) in &lists {
        assert!(measured.lead.is_empty());
        let output = run(&measured.whole);
        assert_eq!(lines(&output).count(), measured.lines, "{name}");
    }
}
