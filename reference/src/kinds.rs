//! The kinds of lines that work out no order, or little, to measure the session
//! program with. `bench` has the other inputs.

use crate::bench::{measure_lines, realistic, scene, Maker, Measured, FEET, SETTINGS};
use crate::brake::LONGEST_FEET;
use crate::call::Refusal::{
    BeyondLimit, EnteringHead, KnownId, LineFull, NoRight, NoSuchTrain, NotLeaving, OldNumber,
    OtherLength, OutOfTurn, Pending, Place, ReportNotAllowed, Request, Setting, Unreadable,
};
use crate::call::{Call, Entry, Message, Refusal, Settings};
use crate::callers::usual;
use crate::line::{GREATEST_TRACTION, LAST_ID, LAST_NUMBER, LONGEST_LINE, MOST_TRAINS};
use crate::rights::YARD;
use crate::scene::Scene;
use crate::train::Train;
use crate::wire::{put_message, CODE_BYTES, FIELD_BYTES, MESSAGE_BYTES};
use Make::{As, By, For, Same, Spoilt};

/// So many lines of a kind are timed, and so many counted.
pub const TIMED: usize = 100_000;
pub const COUNTED: usize = 5000;

/// No train of a full line has this id.
const UNKNOWN: u64 = MOST_TRAINS as u64 + 1;
/// From head to head of its trains.
const SPACING: u64 = LONGEST_LINE / UNKNOWN;
/// Its trains begin with this request number, and ask with the one after it.
const START: u64 = 1;
const REQUEST: u64 = START + 1;
/// Track enough for the greatest cap, and for many call backs.
const TRACK: u64 = 8_000_000_000;
/// An entering that fits behind the trains as long as there is a place for it.
const FITTING: Entry = entry_at(UNKNOWN, SPACING / 2);

/// A hold of no train that is there.
const STRANGE: Call = Call::Hold { id: UNKNOWN };
/// Settings that are out of range.
const TOO_STRONG: Settings = Settings {
    traction: GREATEST_TRACTION + 1,
    ..SETTINGS
};

/// Each kind is measured with some trains on the line and with the most.
const SOME_AND_MOST: &[usize] = &[8, MOST_TRAINS];
/// An entering is refused for its head only while there is a place.
const SOME_AND_NEARLY_MOST: &[usize] = &[8, MOST_TRAINS - 1];
const NONE: &[usize] = &[0];

/// A kind of line, and the answer that all its lines get.
#[derive(Clone, Copy)]
pub struct Case {
    name: &'static str,
    /// Why the lines are refused; none where they are accepted.
    pub refusal: Option<Refusal>,
    /// They are measured with each of these numbers of trains on the line.
    pub trains: &'static [usize],
    lead: fn(usize) -> Scene,
    make: Make,
}

/// How the lines of a kind are made.
#[derive(Clone, Copy)]
enum Make {
    /// The same call each time, from its usual caller.
    Same(Call),
    /// A call for the train in turn, from its usual caller.
    For(fn(&Train) -> Call),
    /// A call for the train in turn, from this caller.
    As(u64, fn(&Train) -> Call),
    /// A hold of the train in turn, spoilt.
    Spoilt(fn(&mut Vec<u8>)),
    /// Any line, by its number.
    By(fn(&mut Scene, usize)),
}

impl Case {
    const fn accepted(name: &'static str, make: Make) -> Case {
        Case {
            name,
            refusal: None,
            trains: SOME_AND_MOST,
            lead: standing,
            make,
        }
    }

    const fn refused(why: Refusal, name: &'static str, make: Make) -> Case {
        let refusal = Some(why);
        Case {
            refusal,
            ..Case::accepted(name, make)
        }
    }

    const fn unreadable(name: &'static str, spoil: fn(&mut Vec<u8>)) -> Case {
        Case::refused(Unreadable, name, Spoilt(spoil))
    }

    const fn after(self, lead: fn(usize) -> Scene) -> Case {
        Case { lead, ..self }
    }

    const fn with(self, trains: &'static [usize]) -> Case {
        Case { trains, ..self }
    }

    /// Its name, with so many trains on the line.
    pub fn title(&self, trains: usize) -> String {
        let name = self.name;
        let kind = match self.refusal {
            None => name.to_string(),
            Some(Unreadable) => format!("unreadable: {name}"),
            Some(why) => format!("refused {}: {name}", why.number()),
        };
        match trains {
            0 => format!("{kind}, no train"),
            _ => format!("{kind}, {trains} trains"),
        }
    }

    /// So many of its lines, with so many trains on the line.
    pub fn measured(&self, trains: usize, count: usize) -> Measured {
        let mut scene = (self.lead)(trains);
        measure_lines(&mut scene, count, |scene, number| {
            self.make.send(scene, number)
        })
    }
}

impl Make {
    /// Sends the line with this number.
    fn send(self, scene: &mut Scene, number: usize) {
        match self {
            Same(call) => scene.call(call),
            For(call) => scene.call(call(&in_turn(scene, number))),
            As(caller, call) => {
                let call = call(&in_turn(scene, number));
                scene.send(&text(Message { caller, call }));
            }
            Spoilt(spoil) => {
                let mut line = text(usual(hold(&in_turn(scene, number))));
                spoil(&mut line);
                scene.send(&line);
            }
            By(send) => send(scene, number),
        }
    }
}

const HOLD: Case = Case::accepted("hold", For(hold));

/// Each kind of line that works out no order, or little.
pub const CASES: &[Case] = &[
    HOLD,
    Case::accepted("lift", For(lift)),
    Case::accepted(
        "extend, new number",
        For(|train| ask(train, train.number + 1, 1)),
    ),
    Case::accepted("extend, repeat", For(ask_once)).after(asked),
    Case::accepted("call back", For(|train| call_back(train, train.end - 1))).after(lent),
    Case::accepted("call back, pending", For(call_back_short)).after(under_way),
    Case::accepted("report at a stand, no track", For(stay)),
    Case::accepted("report at a stand, free track", For(stay)).after(lent),
    Case::accepted("report at a stand, held", For(stay)).after(held),
    Case::accepted("take off and enter", By(take_off_and_enter)).after(short_trains),
    Case::refused(OutOfTurn, "second opening", Same(Call::Open(SETTINGS))),
    Case::refused(OutOfTurn, "before the opening", Same(STRANGE))
        .after(unopened)
        .with(NONE),
    Case::refused(Setting, "traction", Same(Call::Open(TOO_STRONG)))
        .after(unopened)
        .with(NONE),
    Case::refused(
        Refusal::Entry,
        "id",
        entering(Entry {
            id: LAST_ID + 1,
            ..FITTING
        }),
    ),
    Case::refused(
        Refusal::Entry,
        "length",
        entering(Entry {
            feet: LONGEST_FEET + 1,
            ..FITTING
        }),
    ),
    Case::refused(
        Refusal::Entry,
        "load class",
        entering(Entry {
            class: 4,
            ..FITTING
        }),
    ),
    Case::refused(
        Refusal::Entry,
        "starting number",
        entering(Entry {
            start: LAST_NUMBER + 1,
            ..FITTING
        }),
    ),
    Case::refused(KnownId, "known id", For(enter_again)),
    Case::refused(LineFull, "full line", entering(FITTING)).with(&[MOST_TRAINS]),
    Case::refused(
        EnteringHead,
        "below the length",
        entering(entry_at(UNKNOWN, 1)),
    )
    .with(SOME_AND_NEARLY_MOST),
    Case::refused(
        EnteringHead,
        "beyond the limit",
        entering(entry_at(UNKNOWN, SPACING)),
    )
    .with(SOME_AND_NEARLY_MOST),
    Case::refused(NoSuchTrain, "hold", Same(STRANGE)),
    Case::refused(NoSuchTrain, "report", Same(report(UNKNOWN, SPACING))),
    Case::refused(
        ReportNotAllowed,
        "behind the last head",
        For(|train| report(train.id, train.motion.head - 1)),
    ),
    Case::refused(
        ReportNotAllowed,
        "beyond the worst case",
        For(|train| report(train.id, train.motion.head + 1)),
    ),
    Case::refused(Request, "request number", For(|train| ask(train, 0, 1))),
    Case::refused(Request, "length", For(|train| ask(train, REQUEST, 0))),
    Case::refused(
        OldNumber,
        "starting number",
        For(|train| ask(train, START, 1)),
    ),
    Case::refused(
        OldNumber,
        "below the last",
        For(|train| ask(train, START, 1)),
    )
    .after(asked),
    Case::refused(
        OtherLength,
        "other length",
        For(|train| ask(train, REQUEST, 2)),
    )
    .after(asked),
    Case::refused(
        BeyondLimit,
        "beyond the limit",
        For(|train| ask(train, REQUEST, LONGEST_LINE)),
    ),
    Case::refused(
        Place,
        "behind the head",
        For(|train| call_back(train, train.motion.head - 1)),
    ),
    Case::refused(
        Place,
        "above the end",
        For(|train| call_back(train, train.end + 1)),
    ),
    Case::refused(
        Pending,
        "new number",
        For(|train| ask(train, REQUEST + 1, 1)),
    )
    .after(called_back),
    Case::refused(NotLeaving, "not first", By(take_off_another)),
    Case::refused(
        NotLeaving,
        "not under brake",
        By(|scene, _| take_off_first(scene)),
    )
    .after(driving),
    Case::refused(NoRight, "hold by the yard", As(YARD, hold)),
    Case::refused(NoRight, "report by another train", As(UNKNOWN, stay)),
    Case::unreadable("code 9", |line| line[CODE_BYTES - 1] = b'9'),
    Case::unreadable("letter in the code", |line| line[CODE_BYTES - 1] = b'x'),
    Case::unreadable("letter in the last column", |line| letter_last(line)),
    Case::unreadable("leading zero", |line| line[MESSAGE_BYTES - 2] = b'0'),
    Case::unreadable("unused number", |line| {
        line[CODE_BYTES + 2 * FIELD_BYTES - 1] = b'1'
    }),
    Case::unreadable("empty line", |line| resize(line, 1)),
    Case::unreadable("5 bytes", |line| resize(line, 5)),
    Case::unreadable("86 bytes", |line| resize(line, MESSAGE_BYTES)),
    Case::unreadable("88 bytes", |line| resize(line, MESSAGE_BYTES + 2)),
    Case::unreadable("200 bytes", |line| resize(line, 200)),
];

/// The inputs of which each line is sent once the one before it is answered.
pub const ONE_BY_ONE: [(&str, Maker); 3] = [
    ("hold, 8 trains", |count| HOLD.measured(8, count)),
    ("hold, 32 trains", |count| HOLD.measured(32, count)),
    ("realistic, 8 trains", |count| realistic(8, count)),
];

/// A hold, a lift, a hold of an unknown train and an unreadable line.
const MIXED: [Make; 4] = [
    For(hold),
    For(lift),
    Same(STRANGE),
    Spoilt(|line| letter_last(line)),
];

/// Those in turn, on a full line.
pub fn cheap_mixed(count: usize) -> Measured {
    measure_lines(&mut standing(MOST_TRAINS), count, |scene, number| {
        MIXED[number % MIXED.len()].send(scene, number / MIXED.len())
    })
}

const fn entry_at(id: u64, head: u64) -> Entry {
    Entry {
        id,
        head,
        feet: FEET,
        class: 1,
        start: START,
    }
}

const fn entering(entry: Entry) -> Make {
    Same(Call::Enter(entry))
}

fn unopened(_: usize) -> Scene {
    scene()
}

/// Trains stand on the line under brake, all with room ahead.
fn standing(trains: usize) -> Scene {
    let mut scene = scene();
    scene.open(SETTINGS);
    for id in (1..=trains as u64).rev() {
        scene.enter(entry_at(id, SPACING * id));
    }
    scene
}

/// The same after a call for each of them.
fn after_each(trains: usize, call: fn(&Train) -> Call) -> Scene {
    then_each(standing(trains), call)
}

/// A scene after a call for each train.
fn then_each(mut scene: Scene, call: fn(&Train) -> Call) -> Scene {
    let trains = scene.trains().len();
    (0..trains).for_each(|number| For(call).send(&mut scene, number));
    scene
}

fn asked(trains: usize) -> Scene {
    after_each(trains, ask_once)
}

fn lent(trains: usize) -> Scene {
    after_each(trains, |train| ask(train, REQUEST, TRACK))
}

fn held(trains: usize) -> Scene {
    after_each(trains, hold)
}

/// Each train may drive, with track ahead of it.
fn under_way(trains: usize) -> Scene {
    then_each(lent(trains), stay)
}

/// The same, each with a call back pending.
fn called_back(trains: usize) -> Scene {
    then_each(under_way(trains), call_back_short)
}

/// Each train may drive, though only with cap 0.
fn driving(trains: usize) -> Scene {
    after_each(trains, stay)
}

/// The shortest trains, one close behind another from the line end on, so that
/// the line has room for tens of thousands.
fn short_trains(trains: usize) -> Scene {
    let mut scene = scene();
    scene.open(Settings {
        safety: 0,
        ..SETTINGS
    });
    (0..trains).for_each(|_| follow(&mut scene));
    scene
}

/// Lets the shortest train in behind the last, as near as may be, with the least
/// id that is free.
fn follow(scene: &mut Scene) {
    let trains = scene.trains();
    let is_free = |id: &u64| trains.iter().all(|train| train.id != *id);
    let id = (1..).find(is_free).unwrap_or(UNKNOWN);
    let head = scene.limit(trains.len());
    scene.enter(Entry {
        feet: 1,
        ..entry_at(id, head)
    });
}

/// The two in turn.
fn take_off_and_enter(scene: &mut Scene, number: usize) {
    match number % 2 {
        0 => take_off_first(scene),
        _ => follow(scene),
    }
}

fn take_off_first(scene: &mut Scene) {
    let id = scene.trains()[0].id;
    scene.call(Call::TakeOff { id });
}

/// Tries to take off the trains behind the first, in turn.
fn take_off_another(scene: &mut Scene, number: usize) {
    let behind = &scene.trains()[1..];
    let id = behind[number % behind.len()].id;
    scene.call(Call::TakeOff { id });
}

fn in_turn(scene: &Scene, number: usize) -> Train {
    let trains = scene.trains();
    trains[number % trains.len()]
}

fn hold(train: &Train) -> Call {
    Call::Hold { id: train.id }
}

fn lift(train: &Train) -> Call {
    Call::Lift { id: train.id }
}

fn enter_again(train: &Train) -> Call {
    Call::Enter(entry_at(train.id, FITTING.head))
}

fn ask(train: &Train, number: u64, length: u64) -> Call {
    let id = train.id;
    Call::Extend { id, number, length }
}

fn ask_once(train: &Train) -> Call {
    ask(train, REQUEST, 1)
}

fn call_back(train: &Train, place: u64) -> Call {
    Call::CallBack {
        id: train.id,
        place,
    }
}

/// Back to its head, short of its reach.
fn call_back_short(train: &Train) -> Call {
    call_back(train, train.motion.head)
}

const fn report(id: u64, head: u64) -> Call {
    Call::Report { id, head, speed: 0 }
}

/// A report of a train that stands where it stood.
fn stay(train: &Train) -> Call {
    report(train.id, train.motion.head)
}

fn text(message: Message) -> Vec<u8> {
    let mut line = Vec::new();
    put_message(message, &mut line);
    line
}

fn letter_last(line: &mut [u8]) {
    line[MESSAGE_BYTES - 1] = b'x';
}

/// Cuts a line, or fills it with spaces, to so many bytes with its line feed.
fn resize(line: &mut Vec<u8>, bytes: usize) {
    line.pop();
    line.resize(bytes - 1, b' ');
    line.push(b'\n');
}
