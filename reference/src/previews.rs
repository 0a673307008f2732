//! Lists for the desk program: those for the session program, with previews
//! among their lines.

use crate::brake::{LONGEST_FEET, STEPS_PER_FOOT};
use crate::call::{Asked, Call, Code, Entry, Message};
use crate::callers::{usual, wrong_caller, Wrong};
use crate::generate::{numbered as numbered_calls, seed_of};
use crate::line::{Line, LAST_ID, LAST_NUMBER};
use crate::random::Random;
use crate::ranges::wrong_settings;
use crate::session::Controller;
use crate::spoil::{set_code, spoil, widen_caller};
use crate::train::Train;
use crate::wire::{lines, put_asked, read_asked, read_message, whole_line, CODE_BYTES};

/// At most so many previews come before the first line.
const FIRST: u64 = 16;
/// About once in so many lines there is a preview of some call.
const ANY_ONCE_IN: u64 = 2;
/// Once in so many previews the line is spoilt.
const SPOILT_ONCE_IN: u64 = 30;
/// Beside the codes of previews, and cut from them.
const ODD_CODES: [&[u8]; 7] = [b"49", b"50", b"59", b"60", b"61", b"5 ", b"5"];

/// The list with this number of the run with this seed.
pub fn numbered(seed: u64, number: u64) -> Vec<u8> {
    // Not the lists that the session program gets in the same run.
    let list = numbered_calls(!seed, number);
    with_previews(&list, seed_of(seed, number))
}

/// A list of calls with previews among them.
pub fn with_previews(list: &[u8], seed: u64) -> Vec<u8> {
    let mut woven = Woven::new(list, seed);
    for _ in 0..woven.random.between(1, FIRST) {
        woven.preview_any();
    }
    for line in lines(list) {
        woven.take(line);
    }
    woven.end();
    woven.input
}

/// About once in so many calls of a code the call's own preview comes right
/// before it. Most calls are reports.
fn own_once_in(code: Code) -> u64 {
    match code {
        Code::Report => 3,
        Code::Extend => 2,
        _ => 1,
    }
}

/// A list as far as it is written. Its table runs along, so that previews can
/// fit what is there.
struct Woven {
    random: Random,
    controller: Controller,
    /// The calls of the whole list, by code.
    calls: Vec<Vec<Call>>,
    input: Vec<u8>,
}

impl Woven {
    fn new(list: &[u8], seed: u64) -> Woven {
        let mut calls = vec![Vec::new(); Code::ALL.len() + 1];
        for message in lines(list).filter_map(whole_line).filter_map(read_message) {
            calls[message.call.code() as usize].push(message.call);
        }
        Woven {
            random: Random::new(seed),
            controller: Controller::default(),
            calls,
            input: Vec::new(),
        }
    }

    /// The next line of the list, and previews before and after it. A run of
    /// empty lines is not cut, and nothing follows a line without its line feed.
    fn take(&mut self, line: &[u8]) {
        let message = whole_line(line).and_then(read_message);
        if let Some(message) = message {
            self.preview_own(message);
        }
        self.send(line);
        let is_last = !line.ends_with(b"\n");
        if is_last || line == b"\n" || !self.random.once_in(ANY_ONCE_IN) {
            return;
        }
        match message.filter(|_| self.random.once_in(6)) {
            Some(message) => self.preview(message),
            None => self.preview_any(),
        }
    }

    /// Some lists end in a preview without its line feed.
    fn end(&mut self) {
        if !self.input.ends_with(b"\n") || !self.random.once_in(3) {
            return;
        }
        if let Some(message) = self.any_message() {
            put_asked(Asked::Preview(message), &mut self.input);
            self.input.pop();
        }
    }

    fn send(&mut self, text: &[u8]) {
        for line in lines(text).filter_map(whole_line) {
            if let Some(Asked::Call(message)) = read_asked(line) {
                self.controller.answer(message);
            }
        }
        self.input.extend_from_slice(text);
    }

    fn preview(&mut self, message: Message) {
        let mut text = Vec::with_capacity(128);
        put_asked(Asked::Preview(message), &mut text);
        if self.random.once_in(SPOILT_ONCE_IN) {
            self.spoil(&mut text, message.caller);
        }
        self.send(&text);
    }

    fn spoil(&mut self, text: &mut Vec<u8>, caller: u64) {
        match self.random.below(4) {
            0 => set_code(&mut text[..CODE_BYTES], self.random.pick(&ODD_CODES)),
            1 => widen_caller(text, caller, &mut self.random),
            _ => spoil(text, &mut self.random),
        }
        // The line after it is a call of the list.
        if !text.ends_with(b"\n") {
            text.push(b'\n');
        }
    }

    /// Now and then the preview of a call that comes next.
    fn preview_own(&mut self, message: Message) {
        if self.random.once_in(own_once_in(message.call.code())) {
            self.preview(message);
        }
    }

    /// A preview of any call, now and then two of the same.
    fn preview_any(&mut self) {
        let Some(message) = self.any_message() else {
            return;
        };
        self.preview(message);
        if self.random.once_in(8) {
            self.preview(message);
        }
    }

    /// Any call, now and then from a caller without the right.
    fn any_message(&mut self) -> Option<Message> {
        let call = self.any_call()?;
        if !self.random.once_in(3) {
            return Some(usual(call));
        }
        let kind = self.random.pick(&Wrong::DRAWN);
        let on_line: Vec<u64> = self.trains().iter().map(|train| train.id).collect();
        let wrong = wrong_caller(kind, call, &on_line, &mut self.random);
        let caller = wrong.unwrap_or(usual(call).caller);
        Some(Message { caller, call })
    }

    /// A call of any code that fits the table, or one from anywhere in the list.
    fn any_call(&mut self) -> Option<Call> {
        let code = self.random.pick(Code::ALL);
        if self.random.once_in(2) {
            return self.listed(code);
        }
        let line = self.controller.line();
        line.and_then(|line| fitting(code, line, &mut self.random))
            .or_else(|| self.listed(code))
    }

    fn listed(&mut self, code: Code) -> Option<Call> {
        let calls = &self.calls[code as usize];
        if calls.is_empty() {
            return None;
        }
        match self.random.pick(calls) {
            Call::Open(settings) if self.random.once_in(2) => {
                Some(Call::Open(wrong_settings(settings, &mut self.random)))
            }
            call => Some(call),
        }
    }

    fn trains(&self) -> &[Train] {
        self.controller.line().map_or(&[], Line::trains)
    }
}

/// A call of this code that the table would take, mostly.
fn fitting(code: Code, line: &Line, random: &mut Random) -> Option<Call> {
    let index = any_train(line, random);
    let train = line.trains().get(index).copied();
    match code {
        Code::Open => Some(Call::Open(line.settings())),
        Code::Enter => entering(line, random),
        Code::Report => train.map(|train| report_of(train, random)),
        Code::Extend => train.map(|train| extension_of(train, line.limit(index), random)),
        Code::CallBack => train.map(|train| call_back_of(train, random)),
        Code::Hold => train.map(|train| Call::Hold { id: train.id }),
        Code::Lift => train.map(|train| Call::Lift { id: train.id }),
        Code::TakeOff => {
            let id = line.trains().first()?.id;
            Some(Call::TakeOff { id })
        }
    }
}

/// The index of any train, often of one with a call back pending.
fn any_train(line: &Line, random: &mut Random) -> usize {
    let pending = line.trains().iter().position(|train| train.want.is_some());
    let any = random.below(line.trains().len().max(1) as u64) as usize;
    pending.filter(|_| !random.once_in(3)).unwrap_or(any)
}

/// As near behind the last train as may be.
fn entering(line: &Line, random: &mut Random) -> Option<Call> {
    let head = line.limit(line.trains().len())?;
    let longest = (head / STEPS_PER_FOOT).clamp(1, LONGEST_FEET);
    let entry = Entry {
        id: random.between(1, LAST_ID),
        head,
        feet: random.scaled(longest),
        class: random.between(1, 3),
        start: random.scaled(LAST_NUMBER),
    };
    Some(Call::Enter(entry))
}

fn report_of(train: Train, random: &mut Random) -> Call {
    let worst = train.worst();
    Call::Report {
        id: train.id,
        head: random.between(train.motion.head, worst.head),
        speed: random.between(0, worst.speed),
    }
}

fn extension_of(train: Train, limit: Option<u64>, random: &mut Random) -> Call {
    let id = train.id;
    // With a call back pending, only the last one again is taken.
    if let Some(length) = train.length.filter(|_| train.want.is_some()) {
        let number = train.number + random.pick(&[0, 0, 1]);
        return Call::Extend { id, number, length };
    }
    let free = limit.unwrap_or(0).saturating_sub(train.end);
    Call::Extend {
        id,
        number: train.number + 1,
        length: random.scaled(free),
    }
}

fn call_back_of(train: Train, random: &mut Random) -> Call {
    let end = train.end;
    let (head, reach) = (train.motion.head.min(end), train.reach().min(end));
    let place = match random.below(2) {
        0 => random.between(head.min(reach), reach),
        _ => random.between(reach, end),
    };
    Call::CallBack {
        id: train.id,
        place,
    }
}
