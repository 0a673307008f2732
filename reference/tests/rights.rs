//! Who may call what: the right itself against a table of numbers, and where its
//! check stands among the others.

use reference::call::{Answer, Call, Entry, Message, Refusal, Settings};
use reference::callers::usual;
use reference::claim::may_call;
use reference::rights::has_right;
use reference::session::Session;
use reference::wire::{lines, put_message, read_answer, whole_line, WIDEST};

/// A caller, the id that the call names, and the codes of the calls that it may
/// make then.
const TABLE: [(u64, u64, &[u64]); 36] = [
    (0, 0, &[1, 5, 6, 7]),
    (0, 1, &[1, 5, 6, 7]),
    (0, 7, &[1, 5, 6, 7]),
    (0, 65_535, &[1, 5, 6, 7]),
    (0, 65_536, &[1, 5, 6, 7]),
    (0, 70_000, &[1, 5, 6, 7]),
    (0, WIDEST, &[1, 5, 6, 7]),
    (70_000, 0, &[2, 8]),
    (70_000, 1, &[2, 8]),
    (70_000, 7, &[2, 8]),
    (70_000, 4464, &[2, 8]),
    (70_000, 65_535, &[2, 8]),
    (70_000, 65_536, &[2, 8]),
    (70_000, 70_000, &[2, 8]),
    (70_000, WIDEST, &[2, 8]),
    (1, 1, &[3, 4]),
    (1, 0, &[]),
    (1, 2, &[]),
    (1, 65_537, &[]),
    (1, 70_000, &[]),
    (7, 7, &[3, 4]),
    (7, 0, &[]),
    (7, 6, &[]),
    (7, 8, &[]),
    (4464, 70_000, &[]),
    (65_535, 65_535, &[3, 4]),
    (65_535, 65_534, &[]),
    (65_535, 65_536, &[]),
    (65_536, 65_536, &[]),
    (65_536, 0, &[]),
    (69_999, 69_999, &[]),
    (69_999, 7, &[]),
    (70_001, 70_001, &[]),
    (70_001, 7, &[]),
    (WIDEST, WIDEST, &[]),
    (u64::MAX, u64::MAX, &[]),
];

const SETTINGS: Settings = Settings {
    line_end: 1_000_000_000,
    safety: 0,
    ceiling: 5000,
    traction: 100,
};

fn entry(id: u64) -> Entry {
    Entry {
        id,
        head: 100_000_000,
        feet: 1,
        class: 1,
        start: 0,
    }
}

/// Every call, by its code; all but the opening name this id.
fn calls(id: u64) -> [Call; 8] {
    let (head, speed) = (100_000_000, 0);
    let (number, length) = (1, 1);
    [
        Call::Open(SETTINGS),
        Call::Enter(entry(id)),
        Call::Report { id, head, speed },
        Call::Extend { id, number, length },
        Call::CallBack { id, place: head },
        Call::Hold { id },
        Call::Lift { id },
        Call::TakeOff { id },
    ]
}

#[test]
fn right_is_the_tables() {
    for (caller, id, codes) in TABLE {
        for call in calls(id) {
            let right = codes.contains(&call.code().number());
            let found = has_right(Message { caller, call });
            assert_eq!(found, right, "{caller}: {call:?}");
            assert_eq!(may_call(caller, call), right, "{caller}: {call:?}");
        }
    }
}

/// Each train for each near it and for its own, and the two others.
#[test]
fn train_speaks_for_itself_only() {
    for caller in 0..=70_002_u64 {
        for id in [caller, caller + 1, caller.saturating_sub(1), 0, 70_000] {
            let speaks = caller == id && caller != 0 && caller <= 65_535;
            let holds = caller == 0;
            let enters = caller == 70_000;
            let expected = [holds, enters, speaks, speaks, holds, holds, holds, enters];
            let found = calls(id).map(|call| has_right(Message { caller, call }));
            assert_eq!(found, expected, "{caller} for {id}");
            assert_eq!(calls(id).map(|call| may_call(caller, call)), expected);
        }
    }
}

/// The answers to these messages.
fn answers(messages: &[Message]) -> Vec<Answer> {
    let mut input = Vec::new();
    for &message in messages {
        put_message(message, &mut input);
    }
    let mut output = Vec::new();
    Session::default().feed(&input, &mut output);
    let answer = |line| whole_line(line).and_then(read_answer).expect("an answer");
    lines(&output).map(answer).collect()
}

/// Callers without the right to a call.
fn wrong(call: Call) -> impl Iterator<Item = Message> {
    let callers = [
        0, 1, 2, 7, 9, 65_535, 65_536, 69_999, 70_000, 70_001, WIDEST,
    ];
    let own = usual(call).caller;
    callers
        .into_iter()
        .filter(move |&caller| caller != own)
        .map(move |caller| Message { caller, call })
}

/// An opened line with trains 7 and 9, which stand under brake.
fn opened() -> Vec<Message> {
    let behind = Entry {
        head: 50_000_000,
        ..entry(9)
    };
    [
        Call::Open(SETTINGS),
        Call::Enter(entry(7)),
        Call::Enter(behind),
    ]
    .map(usual)
    .to_vec()
}

#[test]
fn caller_without_the_right_learns_the_same_of_every_train() {
    let turned_away = Answer::refused(Refusal::NoRight);
    for id in [0, 7, 8, 9, 65_535, 65_536, 70_000, WIDEST] {
        for call in &calls(id)[1..] {
            for message in wrong(*call) {
                let list = [opened(), vec![message]].concat();
                assert_eq!(answers(&list).last(), Some(&turned_away), "{message:?}");
            }
        }
    }
}

/// What its caller would be refused by, another is not told.
#[test]
fn right_comes_before_every_check_but_readable_and_in_turn() {
    let place = 99_999_999;
    let refused = [
        (Call::Enter(entry(0)), 4),
        (Call::Enter(entry(7)), 5),
        (Call::Enter(entry(8)), 7),
        (Call::Hold { id: 8 }, 8),
        (
            Call::Report {
                id: 7,
                head: 0,
                speed: 0,
            },
            9,
        ),
        (
            Call::Extend {
                id: 7,
                number: 0,
                length: 0,
            },
            10,
        ),
        (Call::CallBack { id: 7, place }, 14),
        (Call::TakeOff { id: 9 }, 15),
    ];
    for (call, number) in refused {
        let last = |message| answers(&[opened(), vec![message]].concat()).pop();
        assert_eq!(last(usual(call)).map(|answer| answer.number), Some(number));
        for message in wrong(call) {
            let turned_away = Answer::refused(Refusal::NoRight);
            assert_eq!(last(message), Some(turned_away), "{message:?}");
        }
    }
}

#[test]
fn opening_without_the_right_is_16_and_a_second_one_2() {
    let too_long = Settings {
        line_end: 0,
        ..SETTINGS
    };
    for settings in [SETTINGS, too_long] {
        for message in wrong(Call::Open(settings)) {
            let turned_away = Answer::refused(Refusal::NoRight);
            assert_eq!(answers(&[message]), [turned_away], "{message:?}");
            let list = [opened(), vec![message]].concat();
            let out_of_turn = Answer::refused(Refusal::OutOfTurn);
            assert_eq!(answers(&list).last(), Some(&out_of_turn), "{message:?}");
        }
    }
}

#[test]
fn call_before_the_opening_is_2_whoever_calls() {
    for call in &calls(7)[1..] {
        for message in wrong(*call).chain([usual(*call)]) {
            let out_of_turn = Answer::refused(Refusal::OutOfTurn);
            assert_eq!(answers(&[message]), [out_of_turn], "{message:?}");
        }
    }
}

/// The calls after it are answered as if it had not been there.
#[test]
fn caller_without_the_right_changes_nothing() {
    let (head, speed, number, length) = (100_000_000, 0, 1, 1000);
    let after = [
        Call::Extend {
            id: 7,
            number,
            length,
        },
        Call::Report { id: 7, head, speed },
        Call::Hold { id: 9 },
        Call::Report {
            id: 9,
            head: 50_000_000,
            speed,
        },
        Call::TakeOff { id: 7 },
    ]
    .map(usual)
    .to_vec();
    let without = answers(&[opened(), after.clone()].concat());
    for id in [7, 8, 9] {
        for call in &calls(id)[1..] {
            for message in wrong(*call) {
                let mut with = answers(&[opened(), vec![message], after.clone()].concat());
                with.remove(opened().len());
                assert_eq!(with, without, "{message:?}");
            }
        }
    }
}
