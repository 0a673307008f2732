//! Worst-case motion: cycles, stop travel, reach and the greatest cap.

use crate::brake::Brake;

/// The order of a cycle: drive with its cap, or brake.
#[derive(Clone, Copy, Debug, PartialEq, Eq)]
pub enum Order {
    Drive(u64),
    Brake,
}

impl Order {
    /// As a report is answered: 1 and the cap, or 2 and 0.
    pub fn numbers(self) -> [u64; 2] {
        match self {
            Order::Drive(cap) => [1, cap],
            Order::Brake => [2, 0],
        }
    }

    /// None where no order has these numbers.
    pub fn of_numbers(numbers: [u64; 2]) -> Option<Order> {
        [Order::Drive(numbers[1]), Order::Brake]
            .into_iter()
            .find(|order| order.numbers() == numbers)
    }
}

/// Head and speed at the end of a cycle, and the level that a brake in the
/// coming cycle would have.
#[derive(Clone, Copy, Debug, PartialEq, Eq)]
pub struct Motion {
    pub head: u64,
    pub speed: u64,
    pub level: u64,
}

/// What bounds the cap.
#[derive(Clone, Copy, Debug)]
pub struct Bounds {
    pub ceiling: u64,
    pub traction: u64,
    pub end: u64,
}

/// Travel in one braked cycle and the speed after it.
pub fn braked_cycle(speed: u64, level: u64) -> (u64, u64) {
    if speed >= level {
        return (2 * speed - level, speed - level);
    }
    ((speed * speed).div_ceil(level), 0)
}

/// The sum of braked cycles until speed 0.
pub fn stop_travel(mut speed: u64, mut level: u64, brake: Brake) -> u64 {
    let mut sum = 0;
    while speed > 0 {
        let (travel, after) = braked_cycle(speed, level);
        sum += travel;
        speed = after;
        level = brake.next_level(level);
    }
    sum
}

impl Motion {
    /// The worst case at the end of the coming cycle under an order.
    pub fn worst(self, order: Order, brake: Brake) -> Motion {
        match order {
            Order::Drive(cap) => self.driven(cap),
            Order::Brake => self.braked(brake),
        }
    }

    /// The worst-case head after the coming cycle plus the stop travel there.
    pub fn reach(self, order: Order, brake: Brake) -> u64 {
        let worst = self.worst(order, brake);
        worst.head + stop_travel(worst.speed, worst.level, brake)
    }

    fn driven(self, cap: u64) -> Motion {
        Motion {
            head: self.head + 2 * self.speed + cap,
            speed: self.speed + cap,
            level: 0,
        }
    }

    fn braked(self, brake: Brake) -> Motion {
        let (travel, speed) = braked_cycle(self.speed, self.level);
        Motion {
            head: self.head + travel,
            speed,
            level: brake.next_level(self.level),
        }
    }
}

/// The greatest cap and its reach, found by halving: the reach grows with the
/// cap, so the caps that fit are those up to one place.
pub fn greatest_cap(motion: Motion, brake: Brake, bounds: Bounds) -> Option<(u64, u64)> {
    let reach = |cap| motion.reach(Order::Drive(cap), brake);
    let top = highest_cap(motion.speed, bounds)?;
    let at_top = reach(top);
    if at_top <= bounds.end {
        return Some((top, at_top));
    }
    let mut best = (0, reach(0));
    if best.1 > bounds.end {
        return None;
    }
    let mut beyond = top;
    while beyond - best.0 > 1 {
        let middle = best.0 + (beyond - best.0) / 2;
        let at_middle = reach(middle);
        if at_middle <= bounds.end {
            best = (middle, at_middle);
        } else {
            beyond = middle;
        }
    }
    Some(best)
}

/// The greatest cap as document 01 words it, tried from A down to 0.
pub fn greatest_cap_by_scan(motion: Motion, brake: Brake, bounds: Bounds) -> Option<u64> {
    (0..=bounds.traction).rev().find(|&cap| {
        motion.speed + cap <= bounds.ceiling && motion.reach(Order::Drive(cap), brake) <= bounds.end
    })
}

/// The greatest cap that engine and ceiling allow.
fn highest_cap(speed: u64, bounds: Bounds) -> Option<u64> {
    let room = bounds.ceiling.checked_sub(speed)?;
    Some(room.min(bounds.traction))
}
