//! The table of trains and its calls. Checks run in the order of the papers, and
//! the first that applies is the answer.

use crate::brake::{Brake, STEPS_PER_FOOT};
use crate::call::{Answer, Call, Entry, Refusal, Settings};
use crate::motion::{greatest_cap, Bounds, Motion, Order};
use crate::train::Train;

pub const LONGEST_LINE: u64 = 2_000_000_000_000;
pub const GREATEST_SAFETY: u64 = 20_000_000_000;
pub const GREATEST_CEILING: u64 = 40_000_000;
pub const GREATEST_TRACTION: u64 = 100_000;
pub const MOST_TRAINS: usize = 32;
pub const LAST_NUMBER: u64 = 4_294_967_295;
pub const LAST_ID: u64 = 65_535;

#[derive(Clone, Debug)]
pub struct Line {
    settings: Settings,
    trains: Vec<Train>,
}

impl Line {
    pub fn open(settings: Settings) -> Result<Line, Answer> {
        if !in_range(&settings) {
            return Err(Answer::refused(Refusal::Setting));
        }
        Ok(Line {
            settings,
            trains: Vec::with_capacity(MOST_TRAINS),
        })
    }

    pub fn settings(&self) -> Settings {
        self.settings
    }

    /// The trains in their sequence, the first one in front.
    pub fn trains(&self) -> &[Train] {
        &self.trains
    }

    /// The train with this id, where it is on the line.
    pub fn train(&self, id: u64) -> Option<Train> {
        self.find(id).map(|index| self.trains[index])
    }

    /// The farthest place of an end for the train with this index; none where
    /// the safety distance reaches back beyond the start of the line.
    pub fn limit(&self, index: usize) -> Option<u64> {
        if index == 0 {
            return Some(self.settings.line_end);
        }
        let ahead = &self.trains[index - 1];
        let behind_head = ahead.steps() + self.settings.safety;
        ahead.motion.head.checked_sub(behind_head)
    }

    /// Any call but an opening, which makes a table of its own.
    pub fn call(&mut self, call: Call) -> Answer {
        match call {
            Call::Open(_) => Answer::refused(Refusal::OutOfTurn),
            Call::Enter(entry) => self.enter(entry),
            Call::Report { id, head, speed } => self.report(id, head, speed),
            Call::Extend { id, number, length } => self.extend(id, number, length),
            Call::CallBack { id, place } => self.call_back(id, place),
            Call::Hold { id } => self.hold(id),
            Call::Lift { id } => self.lift(id),
            Call::TakeOff { id } => self.take_off(id),
        }
    }

    pub fn enter(&mut self, entry: Entry) -> Answer {
        if !(1..=LAST_ID).contains(&entry.id) || entry.start > LAST_NUMBER {
            return Answer::refused(Refusal::Entry);
        }
        let Some(brake) = Brake::of_consist(entry.feet, entry.class) else {
            return Answer::refused(Refusal::Entry);
        };
        if self.find(entry.id).is_some() {
            return Answer::refused(Refusal::KnownId);
        }
        if self.trains.len() >= MOST_TRAINS {
            return Answer::refused(Refusal::LineFull);
        }
        if entry.head < entry.feet * STEPS_PER_FOOT
            || !self.is_within(self.trains.len(), entry.head)
        {
            return Answer::refused(Refusal::EnteringHead);
        }
        let train = Train::entered(entry, brake);
        self.trains.push(train);
        Answer::accepted([brake.full, brake.growth, train.end])
    }

    pub fn report(&mut self, id: u64, head: u64, speed: u64) -> Answer {
        let Some(index) = self.find(id) else {
            return Answer::refused(Refusal::NoSuchTrain);
        };
        let train = self.trains[index];
        let worst = train.worst();
        if !train.allows(head, speed, worst) {
            return Answer::refused(Refusal::ReportNotAllowed);
        }
        let motion = Motion {
            head,
            speed,
            level: worst.level,
        };
        let (order, reach) = self.next_order(&train, motion);
        let train = &mut self.trains[index];
        train.motion = motion;
        train.order = order;
        if speed == 0 {
            train.penalty = false;
        } else if order == Order::Brake {
            train.penalty = true;
        }
        train.settle(reach);
        let [number, cap] = order.numbers();
        Answer::accepted([number, cap, reach])
    }

    pub fn extend(&mut self, id: u64, number: u64, length: u64) -> Answer {
        let Some(index) = self.find(id) else {
            return Answer::refused(Refusal::NoSuchTrain);
        };
        if !self.is_request_in_range(number, length) {
            return Answer::refused(Refusal::Request);
        }
        let train = self.trains[index];
        if train.has_passed(number) {
            return Answer::refused(Refusal::OldNumber);
        }
        if let Some(last) = train.length.filter(|_| number == train.number) {
            if length != last {
                return Answer::refused(Refusal::OtherLength);
            }
            return Answer::accepted([train.end, 1, 0]);
        }
        if train.want.is_some() {
            return Answer::refused(Refusal::Pending);
        }
        let end = train.end + length;
        if !self.is_within(index, end) {
            return Answer::refused(Refusal::BeyondLimit);
        }
        let train = &mut self.trains[index];
        train.end = end;
        train.number = number;
        train.length = Some(length);
        Answer::accepted([end, 0, 0])
    }

    pub fn call_back(&mut self, id: u64, place: u64) -> Answer {
        let Some(index) = self.find(id) else {
            return Answer::refused(Refusal::NoSuchTrain);
        };
        let train = &mut self.trains[index];
        if place < train.motion.head || place > train.end {
            return Answer::refused(Refusal::Place);
        }
        train.call_back(place);
        Answer::DONE
    }

    pub fn hold(&mut self, id: u64) -> Answer {
        let Some(index) = self.find(id) else {
            return Answer::refused(Refusal::NoSuchTrain);
        };
        self.trains[index].held = true;
        Answer::DONE
    }

    pub fn lift(&mut self, id: u64) -> Answer {
        let Some(index) = self.find(id) else {
            return Answer::refused(Refusal::NoSuchTrain);
        };
        self.trains[index].held = false;
        Answer::DONE
    }

    pub fn take_off(&mut self, id: u64) -> Answer {
        let Some(index) = self.find(id) else {
            return Answer::refused(Refusal::NoSuchTrain);
        };
        if index != 0 || !self.trains[index].may_be_taken_off() {
            return Answer::refused(Refusal::NotLeaving);
        }
        self.trains.remove(index);
        Answer::DONE
    }

    fn find(&self, id: u64) -> Option<usize> {
        self.trains.iter().position(|train| train.id == id)
    }

    fn is_within(&self, index: usize, place: u64) -> bool {
        self.limit(index).is_some_and(|limit| place <= limit)
    }

    fn is_request_in_range(&self, number: u64, length: u64) -> bool {
        let longest = self.settings.line_end;
        (1..=LAST_NUMBER).contains(&number) && (1..=longest).contains(&length)
    }

    /// The order for the coming cycle and its reach.
    fn next_order(&self, train: &Train, motion: Motion) -> (Order, u64) {
        let brake = train.brake;
        let bounds = Bounds {
            ceiling: self.settings.ceiling,
            traction: self.settings.traction,
            end: train.aim(),
        };
        let braked = || (Order::Brake, motion.reach(Order::Brake, brake));
        let stays_on = train.penalty && motion.speed > 0;
        if stays_on || train.held {
            return braked();
        }
        match greatest_cap(motion, brake, bounds) {
            Some((cap, reach)) => (Order::Drive(cap), reach),
            None => braked(),
        }
    }
}

fn in_range(settings: &Settings) -> bool {
    (1..=LONGEST_LINE).contains(&settings.line_end)
        && settings.safety <= GREATEST_SAFETY
        && (1..=GREATEST_CEILING).contains(&settings.ceiling)
        && (1..=GREATEST_TRACTION).contains(&settings.traction)
}
