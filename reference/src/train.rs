//! The record of one train.

use crate::brake::{Brake, STEPS_PER_FOOT};
use crate::call::{Entry, Record};
use crate::motion::{Motion, Order};

/// One train record.
#[derive(Clone, Copy, Debug, PartialEq, Eq)]
pub struct Train {
    pub id: u64,
    pub feet: u64,
    pub brake: Brake,
    pub motion: Motion,
    pub order: Order,
    pub end: u64,
    /// The place that a pending call back wants. It lies below the reach.
    pub want: Option<u64>,
    pub held: bool,
    /// Braked while it moved, and not reported at a stand since: a penalty brake.
    pub penalty: bool,
    /// The starting number of this stay.
    pub start: u64,
    /// The last accepted request number, or the starting number before it.
    pub number: u64,
    /// The last accepted length, none before the first accepted extension.
    pub length: Option<u64>,
}

impl Train {
    /// No train: zeros, and drive with cap 0 as the order.
    pub const NONE: Train = Train {
        id: 0,
        feet: 0,
        brake: Brake { full: 0, growth: 0 },
        motion: Motion {
            head: 0,
            speed: 0,
            level: 0,
        },
        order: Order::Drive(0),
        end: 0,
        want: None,
        held: false,
        penalty: false,
        start: 0,
        number: 0,
        length: None,
    };

    /// A train that has just entered: standing at its end under the full brake.
    pub fn entered(entry: Entry, brake: Brake) -> Train {
        Train {
            id: entry.id,
            feet: entry.feet,
            brake,
            motion: Motion {
                head: entry.head,
                speed: 0,
                level: brake.full,
            },
            order: Order::Brake,
            end: entry.head,
            want: None,
            held: false,
            penalty: false,
            start: entry.start,
            number: entry.start,
            length: None,
        }
    }

    /// Its record as the desk shows it.
    pub fn record(&self) -> Record {
        let [order, cap] = self.order.numbers();
        [
            self.id,
            self.feet,
            self.brake.full,
            self.brake.growth,
            self.motion.head,
            self.motion.speed,
            self.motion.level,
            order,
            cap,
            self.end,
            self.start,
            self.number,
            self.length.unwrap_or(0),
            u64::from(self.held),
            u64::from(self.penalty),
            self.aim(),
        ]
    }

    /// Length in steps.
    pub fn steps(&self) -> u64 {
        self.feet * STEPS_PER_FOOT
    }

    /// The worst case of the last order.
    pub fn worst(&self) -> Motion {
        self.motion.worst(self.order, self.brake)
    }

    pub fn reach(&self) -> u64 {
        self.motion.reach(self.order, self.brake)
    }

    /// Orders are worked out against the place that a pending call back wants, and
    /// against the end where none is pending.
    pub fn aim(&self) -> u64 {
        self.want.unwrap_or(self.end)
    }

    /// Takes a call back: at once where the order already given stops the train by
    /// there, and else as pending. Either way it replaces one that was pending.
    pub fn call_back(&mut self, place: u64) {
        if place < self.reach() {
            self.want = Some(place);
        } else {
            self.end_at(place);
        }
    }

    /// After a report's order with this reach: a pending call back is done once
    /// the train stops by its place, or stands past it.
    pub fn settle(&mut self, reach: u64) {
        let Some(want) = self.want else {
            return;
        };
        if reach <= want {
            self.end_at(want);
        } else if self.motion.speed == 0 && self.motion.head > want {
            self.end_at(self.motion.head);
        }
    }

    fn end_at(&mut self, place: u64) {
        self.end = place;
        self.want = None;
    }

    /// Whether a report is within the worst case of the last order.
    pub fn allows(&self, head: u64, speed: u64, worst: Motion) -> bool {
        head >= self.motion.head && head <= worst.head && speed <= worst.speed
    }

    /// At or below the starting number, or below the last accepted.
    pub fn has_passed(&self, number: u64) -> bool {
        if self.length.is_some() {
            return number < self.number;
        }
        number <= self.number
    }

    /// Standing under brake.
    pub fn may_be_taken_off(&self) -> bool {
        self.motion.speed == 0 && self.order == Order::Brake
    }
}
