//! Call backs that were taken as pending: how each ended, and what came up while
//! one was. It is counted from calls and answers alone.
//!
//! No train is taken off with one pending. A train that is taken off stands under
//! brake. Its reach is its head then, and a call back from there on is taken at
//! once.

use crate::rare::fewer_than;

/// What may happen to a pending call back, or while there is one.
#[derive(Clone, Copy, Debug, PartialEq, Eq)]
pub enum Met {
    /// The end moved to the place, and the train drives on.
    Driving,
    /// The end moved to the place of a train that brakes while it moves.
    Braking,
    /// The end moved to the place of a train that stands at it or short of it.
    Standing,
    /// The train stands past the place, and its head became its end.
    Past,
    /// Another pending one replaced it, with a place farther on.
    Farther,
    /// The same, nearer to the head.
    Nearer,
    /// The same, with the same place.
    Again,
    /// One that was taken at once replaced it.
    AtOnce,
    /// A call back was refused meanwhile.
    Refused,
    /// New track was refused meanwhile that the train could have had.
    WithTrack,
    /// New track was refused meanwhile that was not there.
    WithoutTrack,
    /// An extension was repeated meanwhile.
    Repeated,
    Held,
    Lifted,
    /// A report left it pending.
    Left,
    /// It was taken of a train under a penalty brake.
    Marked,
}

impl Met {
    pub const ALL: [Met; 16] = [
        Met::Driving,
        Met::Braking,
        Met::Standing,
        Met::Past,
        Met::Farther,
        Met::Nearer,
        Met::Again,
        Met::AtOnce,
        Met::Refused,
        Met::WithTrack,
        Met::WithoutTrack,
        Met::Repeated,
        Met::Held,
        Met::Lifted,
        Met::Left,
        Met::Marked,
    ];

    fn in_words(self) -> &'static str {
        match self {
            Met::Driving => "done under drive",
            Met::Braking => "done under brake while moving",
            Met::Standing => "done at a stand",
            Met::Past => "ended at the head",
            Met::Farther => "replaced farther on",
            Met::Nearer => "replaced nearer",
            Met::Again => "replaced by the same",
            Met::AtOnce => "replaced at once",
            Met::Refused => "call backs refused meanwhile",
            Met::WithTrack => "17 with track",
            Met::WithoutTrack => "17 without track",
            Met::Repeated => "repeats meanwhile",
            Met::Held => "holds meanwhile",
            Met::Lifted => "lifts meanwhile",
            Met::Left => "left by a report",
            Met::Marked => "taken under a penalty brake",
        }
    }
}

/// How often each came up.
#[derive(Clone, Copy, Debug, Default, PartialEq, Eq)]
pub struct Pendings {
    counts: [u64; Met::ALL.len()],
}

impl Pendings {
    pub fn count(&mut self, met: Met) {
        self.counts[met as usize] += 1;
    }

    /// Counts a call back that replaces a pending one.
    pub fn replace(&mut self, old: u64, new: u64, is_pending: bool) {
        self.count(if !is_pending {
            Met::AtOnce
        } else if new > old {
            Met::Farther
        } else if new < old {
            Met::Nearer
        } else {
            Met::Again
        });
    }

    pub fn of(&self, met: Met) -> u64 {
        self.counts[met as usize]
    }

    /// Those of another list.
    pub fn add(&mut self, other: Pendings) {
        for (sum, count) in self.counts.iter_mut().zip(other.counts) {
            *sum += count;
        }
    }

    /// Each count with its name.
    pub fn named(&self) -> [(&'static str, u64); Met::ALL.len()] {
        Met::ALL.map(|met| (met.in_words(), self.of(met)))
    }

    /// What came up less often than this, in words.
    pub fn rare(&self, least: u64) -> Vec<String> {
        fewer_than(least, self.named())
    }
}
