//! Brake figures from the consist: load class and length.

pub const LONGEST_FEET: u64 = 10_000;
pub const STEPS_PER_FOOT: u64 = 6_096_000;
/// The brake shop's sheet has an entry for every so many feet.
pub const FEET_PER_ENTRY: u64 = 20;
/// The shortest of the lengths that take its last entry.
pub const LAST_ENTRY_FEET: u64 = LONGEST_FEET - FEET_PER_ENTRY + 1;

const GRAVITY: u64 = 980_665;
const NANOSECONDS_PER_CYCLE: u64 = 100_000_000;

/// Full brake B and growth j of a train, in speed lost per cycle.
#[derive(Clone, Copy, Debug, PartialEq, Eq)]
pub struct Brake {
    pub full: u64,
    pub growth: u64,
}

impl Brake {
    /// None where document 01 refuses the length or the load class.
    pub fn of_consist(feet: u64, class: u64) -> Option<Brake> {
        if !(1..=LONGEST_FEET).contains(&feet) {
            return None;
        }
        let full = full_brake(class)?;
        let cycles = sheet_cycles(feet);
        let growth = full / cycles;
        Some(Brake { full, growth })
    }

    /// The level one braked cycle after `level`.
    pub fn next_level(&self, level: u64) -> u64 {
        (level + self.growth).min(self.full)
    }

    /// Accepted reports after which a held train stands.
    pub fn held_count(&self, ceiling: u64) -> u64 {
        1 + self.full.div_ceil(self.growth) + ceiling.div_ceil(self.full)
    }
}

pub fn full_brake(class: u64) -> Option<u64> {
    let (force, mass) = match class {
        1 => (35_750, 263_000),
        2 => (10_575, 64_000),
        3 => (23_338, 263_000),
        _ => return None,
    };
    Some(force * GRAVITY / mass)
}

/// What the brake shop's sheet has for a length in feet: the formula's cycles at
/// the next multiple of 20 ft. They are worked out here and read off no table.
pub fn sheet_cycles(feet: u64) -> u64 {
    application_cycles(feet.next_multiple_of(FEET_PER_ENTRY))
}

/// Cycles until the full brake is reached, by the formula.
pub fn application_cycles(feet: u64) -> u64 {
    let nanoseconds = 12_220_000_000 + 15_600_000 * feet + 278 * feet * feet;
    nanoseconds.div_ceil(NANOSECONDS_PER_CYCLE)
}
