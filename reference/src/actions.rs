//! Random actions of a scene: calls that fit the table, that just do not fit
//! it, and that are far off.

use crate::brake::{FEET_PER_ENTRY, LAST_ENTRY_FEET, LONGEST_FEET, STEPS_PER_FOOT};
use crate::call::{Call, Entry};
use crate::line::{Line, LAST_ID, LAST_NUMBER};
use crate::motion::{Motion, Order};
use crate::rights::YARD;
use crate::scene::Scene;
use crate::train::Train;
use crate::wire::WIDEST;

/// The shortest length, and both ends of what the last entry of the brake
/// shop's sheet is for.
const SHEET_ENDS: [u64; 3] = [1, LAST_ENTRY_FEET, LONGEST_FEET];

impl Scene {
    /// One action of any kind, for a train on the line or to come.
    pub fn step(&mut self) {
        match self.random.below(100) {
            0..=34 => self.run_on(),
            35..=60 => self.ask_for_more(),
            61..=68 => self.call_some_back(),
            69..=71 => self.call_back_short(),
            72..=75 => self.name_one(|id| Call::Hold { id }),
            76..=81 => self.name_one(|id| Call::Lift { id }),
            82..=84 => self.brake_and_release(),
            85..=88 => self.brake_one(),
            89..=91 => self.stop_and_take_off(),
            92 => self.name_one(|id| Call::TakeOff { id }),
            93..=98 => self.let_in(),
            _ => self.name_a_stranger(),
        }
    }

    /// Some reports of one train, most of them allowed.
    pub fn run_on(&mut self) {
        let Some((index, _)) = self.pick() else {
            return self.let_in();
        };
        let manner = self.random.below(4);
        for _ in 0..self.random.scaled(50) {
            let Some(train) = self.train(index) else {
                return;
            };
            if self.random.once_in(20) {
                self.report_wrongly(&train);
            }
            match manner {
                0 => self.report_less(&train),
                1 => self.report_nearly_worst(&train),
                _ => self.report_worst(&train),
            }
        }
    }

    /// Brings one train to speed as far as its end lets it.
    pub fn run_fast(&mut self) {
        let Some((index, _)) = self.pick() else {
            return self.let_in();
        };
        let reports = self.random.between(1, 450);
        self.run_at_worst(index, reports);
    }

    /// Reports of one train, all of them at a stand, or after it has come to some
    /// speed. Before each its end is set for a cap that fits then.
    pub fn search_caps(&mut self) {
        let Some(settings) = self.line().map(Line::settings) else {
            return;
        };
        let Some((index, _)) = self.pick() else {
            return self.let_in();
        };
        let stands = self.random.once_in(4);
        if !stands {
            let full_speed = settings.ceiling / settings.traction + 1;
            let reports = self.random.below(full_speed.min(400));
            self.run_at_worst(index, reports);
        }
        for _ in 0..self.random.between(1, 200) {
            let Some(train) = self.train(index).filter(|train| !train.held) else {
                return;
            };
            let mut next = self.worst(&train);
            if stands || train.penalty {
                next.speed = 0;
            } else if next.speed >= settings.ceiling {
                next.speed = self.random.below(settings.ceiling);
            }
            let highest = settings.traction.min(settings.ceiling - next.speed);
            self.search_cap(&train, next, highest);
        }
    }

    /// A report after the end was set to the reach of a cap up to the highest, or
    /// one step short of it.
    fn search_cap(&mut self, train: &Train, next: Motion, highest: u64) {
        let cap = match self.random.below(6) {
            0 => self.random.below(2),
            1 => highest - self.random.below(2),
            2 => self.random.scaled(highest),
            _ => self.random.between(0, highest),
        };
        // Short of cap 0 the train would brake, and lose its speed.
        let short = u64::from(cap > 0) * self.random.below(2);
        let end = next.reach(Order::Drive(cap), train.brake) - short;
        let id = train.id;
        if end > train.end {
            self.extend(train, train.number + 1, end - train.end);
        } else {
            // Below the reach it is pending, and the report ends it: a cap fits.
            self.call(Call::CallBack { id, place: end });
        }
        self.report(train, next.head, next.speed);
    }

    fn report_less(&mut self, train: &Train) {
        let worst = self.worst(train);
        let head = self.random.between(train.motion.head, worst.head);
        let speed = match self.random.below(8) {
            0 => 0,
            1 => worst.speed.min(self.random.scaled(1000)),
            _ => self.random.between(0, worst.speed),
        };
        self.report(train, head, speed);
    }

    fn report_nearly_worst(&mut self, train: &Train) {
        let worst = self.worst(train);
        let head = worst.head - self.random.below(3);
        let speed = worst.speed.saturating_sub(self.random.below(3));
        self.report(train, head.max(train.motion.head), speed);
    }

    /// A report that is not allowed, by one or by much.
    fn report_wrongly(&mut self, train: &Train) {
        let worst = self.worst(train);
        let (last, far, fast) = (train.motion.head, worst.head, worst.speed);
        let (head, speed) = match self.random.below(8) {
            0 | 1 => (far + 1, self.random.between(0, fast)),
            2 | 3 => (self.random.between(last, far), fast + 1),
            4 | 5 => (last.saturating_sub(1), self.random.between(0, fast)),
            6 => (far + self.random.scaled(1_000_000), fast),
            _ => self.random.pick(&[(0, 0), (far, WIDEST), (WIDEST, 0)]),
        };
        self.report(train, head, speed);
    }

    /// An extension: mostly a new number and track that is there.
    pub fn ask_for_more(&mut self) {
        let Some((index, train)) = self.pick() else {
            return self.let_in();
        };
        let free = self.limit(index).saturating_sub(train.end);
        let new = train.number + self.random.pick(&[1, 1, 1, 1, 2, 1000]);
        let last_length = train.length.unwrap_or(1);
        let (number, length) = match self.random.below(24) {
            0 | 1 => (train.number, last_length),
            2 => (train.number, last_length + self.random.scaled(1000)),
            3 => (train.number, last_length.saturating_sub(1)),
            4 => (train.number.saturating_sub(1), last_length),
            5 => (self.random.between(0, train.number), last_length),
            6 | 7 => (new, free + 1),
            8 => (new, free + self.random.scaled(1_000_000)),
            9 | 10 => (new, free),
            11 => (0, 1),
            12 => (LAST_NUMBER + 1, 1),
            13 => (new, 0),
            14 => (self.random.between(new, LAST_NUMBER.max(new)), 1),
            _ => (new, self.piece(free)),
        };
        self.extend(&train, number, length);
    }

    /// A length of track, small or large, mostly within what is free.
    fn piece(&mut self, free: u64) -> u64 {
        let most = match self.random.below(4) {
            0 => 1000,
            1 => 20_000_000,
            _ => free,
        };
        self.random.scaled(most)
    }

    /// A call that names any train on the line and nothing else.
    pub fn name_one(&mut self, call: fn(u64) -> Call) {
        match self.pick() {
            Some((_, train)) => self.call(call(train.id)),
            None => self.let_in(),
        }
    }

    /// A hold and its lift while the brake builds up.
    fn brake_and_release(&mut self) {
        let Some((index, train)) = self.pick() else {
            return self.let_in();
        };
        let id = train.id;
        for call in [Call::Hold { id }, Call::Lift { id }] {
            self.call(call);
            if let Some(train) = self.train(index) {
                self.call_back(&train);
                self.report_wrongly(&train);
            }
            let reports = self.random.scaled(30);
            self.run_at_worst(index, reports);
        }
    }

    /// Brings one train to brake while it moves, and disturbs it meanwhile.
    fn brake_one(&mut self) {
        let Some((index, _)) = self.pick() else {
            return self.let_in();
        };
        self.run_to_a_brake(index);
        for _ in 0..self.random.below(5) {
            self.disturb(index);
            let reports = self.random.scaled(12) - 1;
            self.run_at_worst(index, reports);
        }
        self.stop_at_once(index);
        let reports = self.random.below(6);
        self.run_at_worst(index, reports);
    }

    /// Brings all trains to brake while they move, and disturbs them, now this
    /// one and now that. About half of them stand then.
    pub fn brake_all(&mut self) {
        let count = self.trains().len();
        for index in 0..count {
            self.give_track(index);
            self.run_to_a_brake(index);
        }
        for _ in 0..self.random.scaled(40) {
            let Some((index, _)) = self.pick() else {
                return;
            };
            if self.random.once_in(2) {
                self.disturb(index);
            }
            let reports = self.random.below(4);
            self.run_at_worst(index, reports);
        }
        for index in 0..count {
            self.stop_at_once(index);
        }
    }

    /// Runs a train until it brakes while it moves, for want of track or held, or
    /// for so many reports.
    fn run_to_a_brake(&mut self, index: usize) {
        let reports = self.random.scaled(60);
        for count in 0..reports {
            let Some(train) = self.train(index).filter(|train| !train.penalty) else {
                return;
            };
            if count == reports / 2 && self.random.once_in(3) {
                self.call(Call::Hold { id: train.id });
            }
            self.run_at_worst(index, 1);
        }
    }

    /// What must not end the brake of a moving train.
    fn disturb(&mut self, index: usize) {
        let Some(train) = self.train(index) else {
            return;
        };
        let id = train.id;
        match self.random.below(6) {
            0 => self.call(Call::Hold { id }),
            1 => self.call(Call::Lift { id }),
            2 => {
                self.call(Call::Hold { id });
                self.call(Call::Lift { id });
            }
            3 => self.call_back(&train),
            _ => self.give_track(index),
        }
    }

    /// A piece of what track there is.
    pub fn give_track(&mut self, index: usize) {
        let Some(train) = self.train(index) else {
            return;
        };
        let free = self.limit(index).saturating_sub(train.end);
        let length = self.piece(free.max(1));
        self.extend(&train, train.number + 1, length);
    }

    /// A report at or near a stand: slow, still slower, then standing.
    fn stop_at_once(&mut self, index: usize) {
        for slowest in [1000, 1, 0] {
            let Some(train) = self.train(index) else {
                return;
            };
            if self.random.once_in(2) {
                let worst = self.worst(&train);
                self.report(&train, worst.head, worst.speed.min(slowest));
            }
        }
    }

    /// Brings the first train to a stand under brake and takes it off. It is
    /// tried at each stage, since only the last one is allowed.
    pub fn stop_and_take_off(&mut self) {
        let Some(id) = self.trains().first().map(|train| train.id) else {
            return self.let_in();
        };
        self.call(Call::Hold { id });
        for stage in 0..3 {
            if self.random.once_in(2) {
                self.call(Call::TakeOff { id });
            }
            let Some(train) = self.train(0).filter(|train| train.id == id) else {
                return;
            };
            let worst = self.worst(&train);
            let speed = if stage == 0 { worst.speed } else { 0 };
            self.report(&train, worst.head, speed);
        }
        self.call(Call::TakeOff { id });
    }

    /// Brings a train to speed and holds it until well after it must stand.
    pub fn hold_to_a_stand(&mut self) {
        let Some((index, train)) = self.pick() else {
            return self.let_in();
        };
        let Some(settings) = self.line().map(Line::settings) else {
            return;
        };
        let full_speed = settings.ceiling / settings.traction + 1;
        let reports = self.random.scaled(full_speed.min(450));
        self.run_at_worst(index, reports);
        let count = train.brake.held_count(settings.ceiling);
        let again = self.random.between(1, count);
        let id = train.id;
        self.call(Call::Hold { id });
        self.run_at_worst(index, again);
        // A second hold does not begin the count again, and neither a lift nor a
        // call back ends the brake.
        let call = self.random.pick(&[Call::Hold { id }, Call::Lift { id }]);
        self.call(call);
        if let Some(train) = self.train(index).filter(|_| self.random.once_in(2)) {
            let place = train.end;
            self.call(Call::CallBack { id, place });
        }
        self.run_at_worst(index, count + 3 - again);
    }

    /// An entering behind the last train, at or near its limit.
    pub fn let_in(&mut self) {
        if self.trains().len() >= self.profile().most_trains && !self.random.once_in(4) {
            return self.run_on();
        }
        let feet = self.length_in_feet();
        let shortest = feet * STEPS_PER_FOOT;
        let limit = self.limit(self.trains().len());
        let head = match self.random.below(10) {
            0 => shortest,
            1 => shortest - 1,
            2 => limit + 1,
            3 | 4 => limit,
            5 => limit.saturating_sub(self.random.scaled(100_000_000)),
            _ => self.random.between(shortest.min(limit), limit),
        };
        let entry = Entry {
            id: self
                .random
                .between(1, 2 * self.profile().most_trains as u64),
            head,
            feet,
            class: self.random.between(1, 3),
            start: self.starting_number(),
        };
        self.enter(entry);
    }

    /// A length that the scene lets in, often at or beside one for which the
    /// brake shop's sheet has an entry, or at an end of the sheet.
    pub fn length_in_feet(&mut self) -> u64 {
        let longest = self.profile().longest_feet;
        let feet = match self.random.below(8) {
            0 => longest,
            1 => self.random.pick(&SHEET_ENDS),
            2..=4 => {
                let multiple = self.random.scaled(longest).next_multiple_of(FEET_PER_ENTRY);
                multiple - 1 + self.random.below(3)
            }
            _ => self.random.scaled(longest),
        };
        feet.clamp(1, longest)
    }

    fn starting_number(&mut self) -> u64 {
        match self.random.below(8) {
            0 => self.random.between(1, 10),
            1 => self.random.between(LAST_NUMBER - 3, LAST_NUMBER),
            2 => self.random.scaled(LAST_NUMBER),
            _ => 0,
        }
    }

    /// A call that names a train which is not there.
    pub fn name_a_stranger(&mut self) {
        let on_line: Vec<u64> = self.trains().iter().map(|train| train.id).collect();
        let mut id = self.random.pick(&[0, LAST_ID, LAST_ID + 1, YARD, WIDEST]);
        if self.random.once_in(2) {
            id = self.random.between(1, LAST_ID);
        }
        while on_line.contains(&id) {
            id += 1;
        }
        let number = self.random.pick(&[0, 1, LAST_NUMBER + 1]);
        let call = self.random.pick(&calls_naming(id, number));
        self.call(call);
    }
}

/// Each call that names a train.
pub fn calls_naming(id: u64, number: u64) -> [Call; 6] {
    let (head, speed, length, place) = (1, 0, 1, 1);
    [
        Call::Report { id, head, speed },
        Call::Extend { id, number, length },
        Call::CallBack { id, place },
        Call::Hold { id },
        Call::Lift { id },
        Call::TakeOff { id },
    ]
}
