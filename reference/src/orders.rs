//! How the orders of reports were found: which caps a search has to try. It is
//! counted from calls and answers alone.

use crate::brake::Brake;
use crate::call::Settings;
use crate::motion::Order;
use crate::rare::fewer_than;

/// A search reads few levels where the list has no more entries than this, or
/// where none of its trials begins faster: then no run has more cycles.
const FEW: u64 = 240;
const SLOW: u64 = 1_250_000;

/// Orders for which caps were tried, so neither held nor braked before and still
/// moving, by what was found.
#[derive(Clone, Copy, Debug, Default, PartialEq, Eq)]
pub struct Orders {
    /// The greatest cap that engine and ceiling allow.
    pub greatest: u64,
    /// A cap between 0 and that one.
    pub between: u64,
    /// Cap 0, where engine and ceiling allow more.
    pub zero: u64,
    /// Brake, since not even cap 0 fits.
    pub brake: u64,
    /// Those of cap 0 to a moving train: most are to one that stands at its end.
    pub rolling: u64,
    /// Those of the caps between whose search reads few levels.
    pub few: u64,
    /// Those of the caps between whose search reads more.
    pub many: u64,
    /// Those of the caps between from which the train stands only after a braked
    /// cycle at the full level.
    pub full: u64,
}

impl Orders {
    /// Those of another list.
    pub fn add(&mut self, other: Orders) {
        self.greatest += other.greatest;
        self.between += other.between;
        self.zero += other.zero;
        self.brake += other.brake;
        self.rolling += other.rolling;
        self.few += other.few;
        self.many += other.many;
        self.full += other.full;
    }

    /// Counts the order that a report at this speed was answered with.
    pub fn count(&mut self, order: Order, speed: u64, brake: Brake, settings: Settings) {
        let Order::Drive(cap) = order else {
            self.brake += 1;
            return;
        };
        let greatest = settings.traction.min(settings.ceiling - speed);
        if cap == greatest {
            self.greatest += 1;
            return;
        }
        if cap == 0 {
            self.zero += 1;
            self.rolling += u64::from(speed > 0);
            return;
        }
        self.between += 1;
        if reads_few(brake, speed + greatest) {
            self.few += 1;
        } else {
            self.many += 1;
        }
        self.full += u64::from(speed + cap > lost_before_the_full_level(brake));
    }

    /// Each count with its name.
    pub fn named(&self) -> [(&'static str, u64); 8] {
        [
            ("the greatest allowed", self.greatest),
            ("smaller", self.between),
            ("zero", self.zero),
            ("none", self.brake),
            ("zero while moving", self.rolling),
            ("smaller with few levels read", self.few),
            ("smaller with many levels read", self.many),
            ("smaller with a run to the full brake", self.full),
        ]
    }

    /// What came up less often than this, in words.
    pub fn rare(&self, least: u64) -> Vec<String> {
        fewer_than(least, self.named())
    }
}

/// Whether a search reads few levels, where no trial begins faster than this.
fn reads_few(brake: Brake, fastest: u64) -> bool {
    fastest <= SLOW || brake.full.div_ceil(brake.growth) < FEW
}

/// The speed that the cycles below the full level take off, from level 0 on.
fn lost_before_the_full_level(brake: Brake) -> u64 {
    let cycles = brake.full.div_ceil(brake.growth);
    brake.growth * cycles * (cycles - 1) / 2
}
