//! Call backs from the head up to just short of the reach: document 02's request
//! (vi) in numbers, on document 01's worked line. The second implementation and
//! the desk program both have to answer so.

use reference::brake::Brake;
use reference::call::{Answer, Call, Entry, Refusal, Settings};
use reference::callers::usual;
use reference::compare::{desk_program, run};
use reference::desk;
use reference::line::Line;
use reference::motion::{Motion, Order};
use reference::wire::{lines, put_message, read_shown, whole_line};

const SETTINGS: Settings = Settings {
    line_end: 200_000_000_000,
    safety: 8_000_000_000,
    ceiling: 26_822_400,
    traction: 3726,
};
/// Train 7 is alone on the line. All places below are counted from here.
const HEAD: u64 = 14_295_120_000;
const ENTRY: Entry = Entry {
    id: 7,
    head: HEAD,
    feet: 2345,
    class: 1,
    start: 0,
};
const END: u64 = 20_000;
/// Under drive with cap 2,534 at a stand.
const REACH: u64 = 19_993;
/// Where most call backs go.
const PLACE: u64 = 15_000;
const BRAKE: u64 = 2;
const DRIVE: u64 = 1;

/// Columns of the desk's record, from 0 on.
const END_COLUMN: usize = 9;
const PENALTY_COLUMN: usize = 14;
const WANT_COLUMN: usize = 15;

/// What an answer shows of the train: end, wanted place, and whether it is under a
/// penalty brake.
type Seen = [u64; 3];

const fn seen(end: u64, want: u64) -> Seen {
    [HEAD + end, HEAD + want, 0]
}

const fn braked(end: u64, want: u64) -> Seen {
    [HEAD + end, HEAD + want, 1]
}

/// Calls, and what each is answered.
struct Scene {
    input: Vec<u8>,
    expected: Vec<(Answer, Seen)>,
}

impl Scene {
    /// Train 7 has entered, and has 20,000 steps of track.
    fn extended() -> Scene {
        let mut scene = Scene {
            input: Vec::new(),
            expected: Vec::new(),
        };
        scene.ask(Call::Open(SETTINGS), Answer::DONE, [0; 3]);
        let figures = Answer::accepted([133_303, 263, HEAD]);
        scene.ask(Call::Enter(ENTRY), figures, seen(0, 0));
        scene.extend(1, END, END, seen(END, END));
        scene
    }

    /// It may drive with cap 2,534.
    fn driving() -> Scene {
        let mut scene = Scene::extended();
        scene.report([0, 0], [DRIVE, 2534, REACH], seen(END, END));
        scene
    }

    /// It is called back to there, short of its reach.
    fn pending(place: u64) -> Scene {
        let mut scene = Scene::driving();
        scene.call_back(place, seen(END, place));
        scene
    }

    fn ask(&mut self, call: Call, answer: Answer, seen: Seen) {
        put_message(usual(call), &mut self.input);
        self.expected.push((answer, seen));
    }

    fn refused(&mut self, call: Call, why: Refusal) {
        self.ask(call, Answer::refused(why), [0; 3]);
    }

    /// A report of head and speed, answered with order, cap and reach.
    fn report(&mut self, [head, speed]: [u64; 2], [order, cap, reach]: [u64; 3], seen: Seen) {
        let head = HEAD + head;
        let answer = Answer::accepted([order, cap, HEAD + reach]);
        self.ask(Call::Report { id: 7, head, speed }, answer, seen);
    }

    /// A call back that is taken.
    fn call_back(&mut self, place: u64, seen: Seen) {
        self.ask(called_back(HEAD + place), Answer::DONE, seen);
    }

    /// A new extension that is taken.
    fn extend(&mut self, number: u64, length: u64, end: u64, seen: Seen) {
        let answer = Answer::accepted([HEAD + end, 0, 0]);
        self.ask(extension(number, length), answer, seen);
    }

    /// The first extension again.
    fn repeat(&mut self, seen: Seen) {
        let answer = Answer::accepted([seen[0], 1, 0]);
        self.ask(extension(1, END), answer, seen);
    }

    /// Both answer so.
    fn play(&self) {
        let input = &self.input;
        let program = run(&desk_program(), input).unwrap_or_else(|message| panic!("{message}"));
        for output in [desk::run(input), program] {
            let shown = lines(&output).map(|line| {
                let shown = whole_line(line).and_then(read_shown).expect("an answer");
                let columns = [END_COLUMN, WANT_COLUMN, PENALTY_COLUMN];
                (shown.answer, columns.map(|column| shown.record[column]))
            });
            assert_eq!(shown.collect::<Vec<_>>(), self.expected);
        }
    }
}

fn extension(number: u64, length: u64) -> Call {
    let id = 7;
    Call::Extend { id, number, length }
}

fn called_back(place: u64) -> Call {
    Call::CallBack { id: 7, place }
}

#[test]
fn behind_the_head_and_beyond_the_end_are_14() {
    let mut scene = Scene::driving();
    scene.refused(called_back(HEAD - 1), Refusal::Place);
    scene.refused(called_back(HEAD + END + 1), Refusal::Place);
    scene.repeat(seen(END, END));
    scene.play();
}

#[test]
fn refused_call_back_leaves_the_pending_one() {
    let mut scene = Scene::pending(PLACE);
    scene.refused(called_back(HEAD - 1), Refusal::Place);
    scene.repeat(seen(END, PLACE));
    scene.refused(called_back(HEAD + END + 1), Refusal::Place);
    scene.repeat(seen(END, PLACE));
    scene.play();
}

#[test]
fn call_back_to_the_reach_is_taken_at_once() {
    let mut scene = Scene::driving();
    scene.call_back(REACH, seen(REACH, REACH));
    scene.play();
}

#[test]
fn call_back_short_of_the_reach_is_pending() {
    for place in [REACH - 1, 0] {
        Scene::pending(place).play();
    }
}

#[test]
fn new_extension_is_17_while_one_is_pending() {
    let mut scene = Scene::pending(PLACE);
    scene.repeat(seen(END, PLACE));
    scene.refused(extension(1, END + 1), Refusal::OtherLength);
    scene.refused(extension(0, 1), Refusal::Request);
    scene.refused(extension(2, 1), Refusal::Pending);
    // There is not so much track, but that is not looked at.
    scene.refused(extension(2, 200_000_000_000), Refusal::Pending);
    scene.repeat(seen(END, PLACE));
    scene.play();
}

/// And an old one is 11.
#[test]
fn number_refused_with_17_is_not_used() {
    let mut scene = Scene::driving();
    scene.extend(5, 10, END + 10, seen(END + 10, END + 10));
    scene.call_back(PLACE, seen(END + 10, PLACE));
    scene.refused(extension(4, 10), Refusal::OldNumber);
    scene.refused(extension(9, 10), Refusal::Pending);
    scene.refused(extension(6, 10), Refusal::Pending);
    scene.call_back(REACH, seen(REACH, REACH));
    scene.extend(6, 1, REACH + 1, seen(REACH + 1, REACH + 1));
    scene.play();
}

#[test]
fn done_while_the_train_drives_on() {
    let mut scene = Scene::pending(PLACE);
    scene.report([1000, 1500], [DRIVE, 293, 14_999], seen(PLACE, PLACE));
    scene.repeat(seen(PLACE, PLACE));
    scene.play();
}

/// The brake stays on until the train stands.
#[test]
fn done_under_brake_while_the_train_moves() {
    let mut scene = Scene::pending(PLACE);
    scene.report([2534, 1900], [BRAKE, 0, 14_151], braked(PLACE, PLACE));
    scene.report([2634, 100], [BRAKE, 0, 2673], braked(PLACE, PLACE));
    scene.play();
}

#[test]
fn report_whose_reach_is_past_the_place_leaves_it_pending() {
    let mut scene = Scene::pending(PLACE);
    scene.report([2534, 2000], [BRAKE, 0, 15_022], braked(END, PLACE));
    scene.repeat(braked(END, PLACE));
    scene.refused(extension(2, 1), Refusal::Pending);
    scene.play();
}

/// The report at the stand is still answered against the wanted place.
#[test]
fn worst_case_stands_past_the_place_and_ends_at_its_head() {
    let mut scene = Scene::pending(PLACE);
    let brake = Brake::of_consist(ENTRY.feet, ENTRY.class).expect("it is in range");
    let standing = Motion {
        head: 0,
        speed: 0,
        level: 0,
    };
    let mut motion = standing.worst(Order::Drive(2534), brake);
    let mut reports = 0;
    while motion.speed > 0 {
        let Motion { head, speed, .. } = motion;
        scene.report([head, speed], [BRAKE, 0, REACH], braked(END, PLACE));
        motion = motion.worst(Order::Brake, brake);
        reports += 1;
    }
    assert_eq!((motion.head, reports), (REACH, 5));
    scene.report([REACH, 0], [BRAKE, 0, REACH], seen(REACH, REACH));
    scene.report([REACH, 0], [DRIVE, 0, REACH], seen(REACH, REACH));
    scene.play();
}

#[test]
fn call_back_to_the_head_is_done_there_or_just_past_it() {
    let mut scene = Scene::pending(0);
    scene.report([0, 0], [DRIVE, 0, 0], seen(0, 0));
    scene.play();
    let mut scene = Scene::pending(0);
    scene.report([1, 0], [BRAKE, 0, 1], seen(1, 1));
    scene.report([1, 0], [DRIVE, 0, 1], seen(1, 1));
    scene.play();
}

#[test]
fn stand_short_of_the_place_ends_it_under_hold_too() {
    let mut scene = Scene::pending(PLACE);
    scene.ask(Call::Hold { id: 7 }, Answer::DONE, seen(END, PLACE));
    scene.report([100, 0], [BRAKE, 0, 100], seen(PLACE, PLACE));
    scene.play();
}

#[test]
fn stand_at_the_place_ends_it() {
    let mut scene = Scene::pending(2000);
    scene.report([2000, 0], [DRIVE, 0, 2000], seen(2000, 2000));
    scene.play();
}

#[test]
fn hold_and_lift_leave_it_pending() {
    let mut scene = Scene::pending(PLACE);
    for call in [Call::Hold { id: 7 }, Call::Lift { id: 7 }] {
        scene.ask(call, Answer::DONE, seen(END, PLACE));
    }
    scene.refused(extension(2, 1), Refusal::Pending);
    scene.play();
}

#[test]
fn refused_report_leaves_it_pending() {
    let mut scene = Scene::pending(PLACE);
    let (id, head, speed) = (7, HEAD + 2535, 2534);
    scene.refused(Call::Report { id, head, speed }, Refusal::ReportNotAllowed);
    scene.repeat(seen(END, PLACE));
    scene.play();
}

#[test]
fn newer_call_back_replaces_it() {
    for last in [REACH, END] {
        let mut scene = Scene::pending(PLACE);
        scene.call_back(17_000, seen(END, 17_000));
        scene.call_back(16_000, seen(END, 16_000));
        scene.call_back(last, seen(last, last));
        scene.extend(2, 5, last + 5, seen(last + 5, last + 5));
        scene.play();
    }
}

/// Under the entering brake the reach is the head.
#[test]
fn train_that_has_not_reported_is_called_back_at_once() {
    let mut scene = Scene::extended();
    scene.call_back(0, seen(0, 0));
    scene.play();
}

/// It drives with a call back pending, or moves.
#[test]
fn train_is_not_taken_off_meanwhile() {
    let mut scene = Scene::pending(PLACE);
    scene.refused(Call::TakeOff { id: 7 }, Refusal::NotLeaving);
    scene.report([2534, 2000], [BRAKE, 0, 15_022], braked(END, PLACE));
    scene.refused(Call::TakeOff { id: 7 }, Refusal::NotLeaving);
    scene.repeat(braked(END, PLACE));
    scene.play();
}

/// Reports, track, call backs, holds and lifts of the train ahead.
#[test]
fn calls_of_another_train_leave_it_pending() {
    let (id, head) = (8, 100_000_000_000);
    let ahead = Entry {
        id,
        head,
        feet: 1,
        ..ENTRY
    };
    let mut line = Line::open(SETTINGS).expect("the settings are in range");
    let (number, length, speed) = (1, END, 0);
    let own = [
        Call::Enter(ahead),
        Call::Enter(ENTRY),
        extension(number, length),
        Call::Report {
            id: 7,
            head: HEAD,
            speed,
        },
        called_back(HEAD + PLACE),
    ];
    for call in own {
        assert!(line.call(call).is_accepted(), "{call:?}");
    }
    let pending = line.train(7);
    assert_eq!(pending.and_then(|train| train.want), Some(HEAD + PLACE));
    let of_the_other = [
        Call::Extend { id, number, length },
        Call::Report { id, head, speed },
        Call::CallBack { id, place: head },
        Call::Hold { id },
        Call::Lift { id },
        Call::Report { id, head, speed },
    ];
    for call in of_the_other {
        assert!(line.call(call).is_accepted(), "{call:?}");
        assert_eq!(line.train(7), pending, "{call:?}");
    }
    assert_eq!(line.train(8).map(|train| train.end), Some(head));
}

/// The call back of the earlier stay is forgotten with it: a stand ends it, and
/// only a standing train leaves.
#[test]
fn train_that_enters_again_has_none_pending() {
    let mut scene = Scene::pending(PLACE);
    scene.ask(Call::Hold { id: 7 }, Answer::DONE, seen(END, PLACE));
    scene.report([100, 0], [BRAKE, 0, 100], seen(PLACE, PLACE));
    scene.ask(Call::TakeOff { id: 7 }, Answer::DONE, [0; 3]);
    let figures = Answer::accepted([133_303, 263, HEAD]);
    scene.ask(Call::Enter(ENTRY), figures, seen(0, 0));
    scene.extend(1, 5, 5, seen(5, 5));
    scene.play();
}
