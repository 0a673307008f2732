//! Call backs of a scene: taken at once, pending and refused, and what comes while
//! one is pending.

use crate::call::Call;
use crate::motion::{Motion, Order};
use crate::scene::Scene;
use crate::train::Train;
use crate::wire::WIDEST;

/// A train that brakes from a high speed is left to itself after so many reports.
const LONGEST_RUN: usize = 150;

impl Scene {
    pub fn call_some_back(&mut self) {
        match self.pick() {
            Some((_, train)) => self.call_back(&train),
            None => self.let_in(),
        }
    }

    /// A call back to the head, the reach or the end, just beyond them, or between.
    pub fn call_back(&mut self, train: &Train) {
        let (head, end, reach) = (train.motion.head, train.end, self.reach(train));
        let place = match self.random.below(12) {
            0 | 1 => reach,
            2 => reach.saturating_sub(1),
            3 => end,
            4 => end + 1,
            5 => head,
            6 => head + 1,
            7 => head.saturating_sub(1),
            8 => self.random.pick(&[0, WIDEST]),
            9 => self.random.between(head.min(reach), reach),
            _ => self.random.between(reach.min(end), end),
        };
        self.call_back_to(train, place);
    }

    fn call_back_to(&mut self, train: &Train, place: u64) {
        let id = train.id;
        self.call(Call::CallBack { id, place });
    }

    /// Brings one train to speed, calls it back to short of its reach, and goes on
    /// until that is done. Then it asks for track again, with the number that was
    /// refused meanwhile.
    pub fn call_back_short(&mut self) {
        let Some((index, train)) = self.pick() else {
            return self.let_in();
        };
        self.give_track(index);
        let reports = self.random.scaled(30) - 1;
        self.run_at_worst(index, reports);
        if self.random.once_in(6) {
            self.call(Call::Hold { id: train.id });
            self.run_at_worst(index, 1);
        }
        self.want_less(index);
        for _ in 0..self.random.below(12) {
            let Some(train) = self.train(index).filter(is_pending) else {
                break;
            };
            self.meet(index, &train);
        }
        self.run_until_done(index);
        if self.random.once_in(2) {
            self.call(Call::Lift { id: train.id });
        }
        self.give_track(index);
        let reports = self.random.below(3);
        self.run_at_worst(index, reports);
    }

    /// Calls a train back to short of its reach, in view of the report that may
    /// follow.
    fn want_less(&mut self, index: usize) {
        let Some(train) = self.train(index) else {
            return;
        };
        let next = self.next_motion(&train);
        let place = self.place_near(&train, next);
        self.call_back_to(&train, place);
        if self.random.once_in(3) {
            self.report(&train, next.head, next.speed);
        }
    }

    /// A place from the head up to the reach: anywhere, or such that a report just
    /// ends the call back there, or just does not.
    fn place_near(&mut self, train: &Train, next: Motion) -> u64 {
        let (head, reach) = (train.motion.head, self.reach(train));
        let stop = |order| next.reach(order, train.brake);
        let short = self.random.below(2);
        let place = match self.random.below(9) {
            0 => head,
            1 => head + 1,
            2 => reach,
            3 => self.random.between(head.min(reach), reach),
            4 => self.random.between(head.min(next.head), next.head),
            5 => next.head - short,
            6 => stop(Order::Brake) - short,
            7 => stop(Order::Drive(0)) - short,
            _ => stop(Order::Drive(self.random.scaled(3000))) - short,
        };
        place.min(reach.saturating_sub(1)).max(head)
    }

    /// What a train may report next: at any speed, or standing.
    fn next_motion(&mut self, train: &Train) -> Motion {
        let worst = self.worst(train);
        let head = match self.random.below(3) {
            0 => worst.head,
            _ => self.random.between(train.motion.head, worst.head),
        };
        let speed = match self.random.below(4) {
            0 => 0,
            1 => worst.speed,
            _ => self.random.between(0, worst.speed),
        };
        Motion {
            head,
            speed,
            ..worst
        }
    }

    /// What may come while a call back of a train is pending.
    fn meet(&mut self, index: usize, train: &Train) {
        let id = train.id;
        match self.random.below(10) {
            0 => self.call(Call::Hold { id }),
            1 => self.call(Call::Lift { id }),
            2..=4 => self.ask_while_pending(index, train),
            5..=7 => self.call_back_again(train),
            8 => self.report_near(train),
            _ => self.step(),
        }
    }

    /// The last extension again, also with another length, and new ones, with track
    /// and without.
    fn ask_while_pending(&mut self, index: usize, train: &Train) {
        let free = self.limit(index).saturating_sub(train.end);
        let (last, new) = (train.number, train.number + 1);
        let length = train.length.unwrap_or(1);
        let (number, length) = match self.random.below(10) {
            0..=2 => (last, length),
            3 => (last, length + 1),
            4 | 5 => (new, free + 1),
            6 => (last.saturating_sub(1), length),
            7 => (new, 0),
            _ => (new, self.random.scaled(free)),
        };
        self.extend(train, number, length);
    }

    /// A newer call back: farther, nearer, to the same place, past the reach, and
    /// refused ones.
    fn call_back_again(&mut self, train: &Train) {
        let (head, reach, end) = (train.motion.head, self.reach(train), train.end);
        let old = train.want.unwrap_or(end);
        let last = reach.saturating_sub(1);
        let place = match self.random.below(11) {
            0 | 1 => self.random.between(old.min(last), last),
            2 => last,
            3..=5 => self.random.between(head.min(old), old),
            6 => old,
            7 => reach,
            8 => self.random.between(reach.min(end), end),
            9 => head.saturating_sub(1),
            _ => end + 1,
        };
        self.call_back_to(train, place);
    }

    /// A report of any kind, often at a stand beside the wanted place.
    fn report_near(&mut self, train: &Train) {
        let Motion { head, speed, .. } = self.next_motion(train);
        let far = self.worst(train).head;
        let place = train.want.unwrap_or(train.end);
        let beside = self.random.between(place.saturating_sub(1), place + 1);
        if beside >= train.motion.head && beside <= far && self.random.once_in(2) {
            return self.report(train, beside, 0);
        }
        self.report(train, head, speed);
    }

    /// Runs a train at the worst case or slower until its call back is done.
    fn run_until_done(&mut self, index: usize) {
        let worst = self.random.once_in(2);
        for _ in 0..LONGEST_RUN {
            let Some(train) = self.train(index).filter(is_pending) else {
                return;
            };
            if worst {
                self.report_worst(&train);
            } else {
                self.report_near(&train);
            }
        }
    }
}

fn is_pending(train: &Train) -> bool {
    train.want.is_some()
}
