//! A scene writes the input lines of a session. It runs its own table along
//! with them, so that the next call can fit, or just not fit, what is there.

use crate::call::{Call, Entry, Message, Settings};
use crate::callers::{usual, wrong_caller, wrong_once_in, Wrong};
use crate::line::Line;
use crate::motion::Motion;
use crate::random::Random;
use crate::session::Session;
use crate::spoil::{spoil, widen_caller};
use crate::train::Train;
use crate::wire::{put_message, ANSWER_BYTES};

/// What kind of trains a scene lets in, how often a line is spoilt, and whether
/// callers without the right try calls too.
#[derive(Clone, Copy, Debug)]
pub struct Profile {
    pub longest_feet: u64,
    pub most_trains: usize,
    /// Once in so many lines; never with 0.
    pub spoilt: u64,
    pub wrong_callers: bool,
}

pub struct Scene {
    pub random: Random,
    profile: Profile,
    session: Session,
    input: Vec<u8>,
    answers: Vec<u8>,
    lines: usize,
}

impl Scene {
    pub fn new(seed: u64, profile: Profile) -> Scene {
        Scene {
            random: Random::new(seed),
            profile,
            session: Session::default(),
            input: Vec::new(),
            answers: Vec::new(),
            lines: 0,
        }
    }

    pub fn profile(&self) -> Profile {
        self.profile
    }

    pub fn lines(&self) -> usize {
        self.lines
    }

    pub fn input(&self) -> &[u8] {
        &self.input
    }

    pub fn into_input(self) -> Vec<u8> {
        self.input
    }

    pub fn line(&self) -> Option<&Line> {
        self.session.line()
    }

    pub fn trains(&self) -> &[Train] {
        self.line().map_or(&[], Line::trains)
    }

    pub fn train(&self, index: usize) -> Option<Train> {
        self.trains().get(index).copied()
    }

    /// The worst case of a train's last order.
    pub fn worst(&self, train: &Train) -> Motion {
        train.worst()
    }

    pub fn reach(&self, train: &Train) -> u64 {
        train.reach()
    }

    /// The farthest end for the train with this index; 0 where there is none.
    pub fn limit(&self, index: usize) -> u64 {
        self.line().and_then(|line| line.limit(index)).unwrap_or(0)
    }

    pub fn send(&mut self, bytes: &[u8]) {
        self.input.extend_from_slice(bytes);
        self.session.feed(bytes, &mut self.answers);
        self.lines += self.answers.len() / (ANSWER_BYTES + 1);
        self.answers.clear();
    }

    /// A call from its caller, now and then after another has tried it.
    pub fn call(&mut self, call: Call) {
        let once_in = match self.line() {
            None => 1,
            Some(_) => wrong_once_in(call.code()),
        };
        if self.profile.wrong_callers && self.random.once_in(once_in) {
            self.try_wrongly(call);
        }
        self.send_message(usual(call));
    }

    /// A caller without the right tries a call.
    fn try_wrongly(&mut self, call: Call) {
        if self.random.once_in(30) {
            return self.try_too_wide(call);
        }
        let mut kind = self.random.pick(&Wrong::DRAWN);
        while !self.try_as(kind, call) {
            kind = self.random.pick(&Wrong::DRAWN);
        }
    }

    /// Callers without the right try a call, one of each kind.
    pub fn try_as_each(&mut self, call: Call) {
        for kind in Wrong::ALL {
            self.try_as(kind, call);
        }
    }

    /// False where no caller of this kind lacks the right.
    fn try_as(&mut self, kind: Wrong, call: Call) -> bool {
        let on_line: Vec<u64> = self.trains().iter().map(|train| train.id).collect();
        let caller = wrong_caller(kind, call, &on_line, &mut self.random);
        if let Some(caller) = caller {
            self.send_message(Message { caller, call });
        }
        caller.is_some()
    }

    /// A caller whose number is too wide for its columns.
    fn try_too_wide(&mut self, call: Call) {
        let message = usual(call);
        let mut text = Vec::with_capacity(128);
        put_message(message, &mut text);
        widen_caller(&mut text, message.caller, &mut self.random);
        self.send(&text);
    }

    fn send_message(&mut self, message: Message) {
        let mut text = Vec::with_capacity(128);
        put_message(message, &mut text);
        if self.profile.spoilt > 0 && self.random.once_in(self.profile.spoilt) {
            spoil(&mut text, &mut self.random);
        }
        self.send(&text);
    }

    pub fn open(&mut self, settings: Settings) {
        self.call(Call::Open(settings));
    }

    pub fn enter(&mut self, entry: Entry) {
        self.call(Call::Enter(entry));
    }

    /// Reports the worst case of the last order.
    pub fn report_worst(&mut self, train: &Train) {
        let worst = self.worst(train);
        self.report(train, worst.head, worst.speed);
    }

    pub fn report(&mut self, train: &Train, head: u64, speed: u64) {
        let id = train.id;
        self.call(Call::Report { id, head, speed });
    }

    pub fn extend(&mut self, train: &Train, number: u64, length: u64) {
        let id = train.id;
        self.call(Call::Extend { id, number, length });
    }

    /// Any train on the line, with its index.
    pub fn pick(&mut self) -> Option<(usize, Train)> {
        let count = self.trains().len() as u64;
        if count == 0 {
            return None;
        }
        let index = self.random.below(count) as usize;
        Some((index, self.trains()[index]))
    }

    /// So many reports of one train at the worst case of its orders.
    pub fn run_at_worst(&mut self, index: usize, reports: u64) {
        for _ in 0..reports {
            let Some(train) = self.train(index) else {
                return;
            };
            self.report_worst(&train);
        }
    }
}
