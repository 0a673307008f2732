//! Who makes the calls of the lists: the caller whose call it is, and now and
//! then one without the right. And how often each kind of those came up.

use crate::call::{Answer, Asked, Call, Code, Message, Refusal};
use crate::line::LAST_ID;
use crate::random::Random;
use crate::rare::fewer_than;
use crate::rights::{DISPATCHER, YARD};
use crate::wire::{read_asked, FIELD_BYTES, MESSAGE_BYTES, WIDEST};

/// The digits of 2^63, and what is left of it where a line is cut after its last
/// column.
const DIGITS: usize = 19;
const CUT: u64 = (1 << 63) / 10_u64.pow((DIGITS - FIELD_BYTES) as u32);
/// Numbers that nobody has: beside the trains', beside the yard's, and wide.
pub const NOBODY: [u64; 5] = [LAST_ID + 1, YARD - 1, YARD + 1, CUT, WIDEST];
/// What is left of the yard's number in 16 bits: a train's.
const YARD_IN_16_BITS: u64 = YARD - (LAST_ID + 1);

/// A call from the caller whose call it is. No other may make it. Where a report
/// or an extension names an id that no train has, this one may not either.
pub fn usual(call: Call) -> Message {
    let caller = match call {
        Call::Open(_) | Call::CallBack { .. } | Call::Hold { .. } | Call::Lift { .. } => DISPATCHER,
        Call::Enter(_) | Call::TakeOff { .. } => YARD,
        Call::Report { id, .. } | Call::Extend { id, .. } => id,
    };
    Message { caller, call }
}

/// A caller without the right to a call.
#[derive(Clone, Copy, Debug, PartialEq, Eq)]
pub enum Wrong {
    Dispatcher,
    Yard,
    /// The train that is named, with a call that no train may make.
    Named,
    /// Another train on the line.
    Other,
    /// A train that is neither named nor on the line.
    Absent,
    /// A number that no train has, with a report or an extension for itself.
    Itself,
    /// A number that nobody has.
    Nobody,
}

impl Wrong {
    pub const ALL: [Wrong; 7] = [
        Wrong::Dispatcher,
        Wrong::Yard,
        Wrong::Named,
        Wrong::Other,
        Wrong::Absent,
        Wrong::Itself,
        Wrong::Nobody,
    ];

    /// What to draw from: another train twice, since often there is none.
    pub const DRAWN: [Wrong; 7] = [
        Wrong::Dispatcher,
        Wrong::Yard,
        Wrong::Named,
        Wrong::Other,
        Wrong::Other,
        Wrong::Absent,
        Wrong::Nobody,
    ];

    /// What a caller without the right is.
    fn of(message: Message, is_on_line: bool) -> Wrong {
        let names_itself = message.call.id() == Some(message.caller);
        let is_for_trains = matches!(message.call.code(), Code::Report | Code::Extend);
        match message.caller {
            1..=LAST_ID if names_itself => Wrong::Named,
            1..=LAST_ID if is_on_line => Wrong::Other,
            1..=LAST_ID => Wrong::Absent,
            _ if names_itself && is_for_trains => Wrong::Itself,
            DISPATCHER => Wrong::Dispatcher,
            YARD => Wrong::Yard,
            _ => Wrong::Nobody,
        }
    }

    /// The calls that such a caller may not make. Nobody is on the line before
    /// the opening, so no train there asks for one.
    pub fn codes(self) -> &'static [Code] {
        use Code::*;
        match self {
            Wrong::Dispatcher => &[Enter, Report, Extend, TakeOff],
            Wrong::Yard => &[Open, Report, Extend, CallBack, Hold, Lift],
            Wrong::Named => &[Enter, CallBack, Hold, Lift, TakeOff],
            Wrong::Other => &[Enter, Report, Extend, CallBack, Hold, Lift, TakeOff],
            Wrong::Itself => &[Report, Extend],
            Wrong::Absent | Wrong::Nobody => Code::ALL,
        }
    }

    /// A caller of this kind, mostly: it may have the right after all, or be of
    /// another kind. None where there is none. A number that names itself comes
    /// with the call, and is not drawn.
    fn draw(self, call: Call, on_line: &[u64], random: &mut Random) -> Option<u64> {
        match self {
            Wrong::Dispatcher => Some(DISPATCHER),
            Wrong::Yard => Some(YARD),
            Wrong::Named => call.id(),
            Wrong::Itself => None,
            Wrong::Other => other(call, on_line, random),
            Wrong::Absent => Some(absent(random)),
            Wrong::Nobody => Some(nobody(call, random)),
        }
    }
}

fn other(call: Call, on_line: &[u64], random: &mut Random) -> Option<u64> {
    let is_other = |id: &u64| Some(*id) != call.id();
    let others: Vec<u64> = on_line.iter().copied().filter(is_other).collect();
    (!others.is_empty()).then(|| random.pick(&others))
}

fn absent(random: &mut Random) -> u64 {
    match random.below(4) {
        0 => random.pick(&[1, LAST_ID, YARD_IN_16_BITS]),
        _ => random.between(1, LAST_ID),
    }
}

/// A number that nobody has, or one that a few bits make into the right one.
fn nobody(call: Call, random: &mut Random) -> u64 {
    match random.below(8) {
        0 => random.between(YARD + 1, WIDEST),
        1 => random.between(LAST_ID + 1, YARD - 1),
        2 => (usual(call).caller + random.pick(&[1 << 16, 1 << 32])).min(WIDEST),
        _ => random.pick(&NOBODY),
    }
}

/// A caller of this kind without the right to a call, where there is one.
pub fn wrong_caller(kind: Wrong, call: Call, on_line: &[u64], random: &mut Random) -> Option<u64> {
    let drawn = kind.draw(call, on_line, random);
    drawn.filter(|&caller| caller != usual(call).caller)
}

/// About once in so many calls of a code another caller tries it first. Most
/// calls are reports.
pub fn wrong_once_in(code: Code) -> u64 {
    match code {
        Code::Open => 1,
        Code::Report => 150,
        Code::Extend => 10,
        _ => 4,
    }
}

/// How often callers without the right came up.
#[derive(Clone, Copy, Debug, Default, PartialEq, Eq)]
pub struct TurnedAway {
    /// Answers 16 by kind of caller and call code.
    by_kind: [[u64; Code::ALL.len()]; Wrong::ALL.len()],
    /// Answers 16 to each of the numbers that nobody has.
    by_number: [u64; NOBODY.len()],
    /// Answers 2 to other calls than openings.
    pub too_early: u64,
    /// Answers 2 to openings.
    pub second_openings: u64,
    /// Lines that are too long for the number of their caller.
    pub too_wide: u64,
}

impl TurnedAway {
    /// Those of another list.
    pub fn add(&mut self, other: TurnedAway) {
        for (row, others) in self.by_kind.iter_mut().zip(other.by_kind) {
            add_each(row, others);
        }
        add_each(&mut self.by_number, other.by_number);
        self.too_early += other.too_early;
        self.second_openings += other.second_openings;
        self.too_wide += other.too_wide;
    }

    /// Counts the answer to a caller without the right.
    pub fn count(&mut self, message: Message, is_on_line: bool, answer: Answer) {
        let code = message.call.code();
        if answer == Answer::refused(Refusal::NoRight) {
            let kind = Wrong::of(message, is_on_line);
            self.by_kind[kind as usize][place(code)] += 1;
            for (number, count) in NOBODY.into_iter().zip(&mut self.by_number) {
                *count += u64::from(number == message.caller);
            }
        } else if code == Code::Open {
            self.second_openings += 1;
        } else {
            self.too_early += 1;
        }
    }

    /// Counts a line that is unreadable, if its caller makes it so.
    pub fn count_unreadable(&mut self, line: &[u8]) {
        self.too_wide += u64::from(is_too_wide(line));
    }

    pub fn by_kind(&self, kind: Wrong, code: Code) -> u64 {
        self.by_kind[kind as usize][place(code)]
    }

    /// Each number that nobody has, and how often it was answered with 16.
    pub fn by_number(&self) -> impl Iterator<Item = (u64, u64)> + '_ {
        NOBODY.into_iter().zip(self.by_number)
    }

    /// Answers 16 by kind of caller and call, and by number.
    pub fn named(&self) -> Vec<(String, u64)> {
        let mut counts = Vec::new();
        for kind in Wrong::ALL {
            for &code in kind.codes() {
                counts.push((format!("{code:?} by {kind:?}"), self.by_kind(kind, code)));
            }
        }
        for (number, count) in self.by_number() {
            counts.push((format!("caller {number}"), count));
        }
        counts
    }

    /// What came up less often than this, in words.
    pub fn rare(&self, least: u64) -> Vec<String> {
        let others = [
            ("calls too early", self.too_early),
            ("second openings", self.second_openings),
            ("callers too wide", self.too_wide),
        ];
        let mut rare = fewer_than(least, others);
        rare.extend(fewer_than(least, self.named()));
        rare
    }
}

/// Codes count from 1.
fn place(code: Code) -> usize {
    code as usize - 1
}

fn add_each<const N: usize>(sums: &mut [u64; N], others: [u64; N]) {
    for (sum, other) in sums.iter_mut().zip(others) {
        *sum += other;
    }
}

/// A whole call or preview, with more digits after the last column.
fn is_too_wide(line: &[u8]) -> bool {
    let Some((message, more)) = line.split_at_checked(MESSAGE_BYTES) else {
        return false;
    };
    let fills_its_columns = |asked: Asked| asked.message().caller > WIDEST / 10;
    !more.is_empty()
        && more.iter().all(u8::is_ascii_digit)
        && read_asked(message).is_some_and(fills_its_columns)
}
