//! A stay of a train, from its accepted entering on, as its calls and their
//! answers tell it, and what the claim says of it.

use crate::brake::Brake;
use crate::call::{Answer, Refusal, Settings};
use crate::claim::Penalties;
use crate::motion::{Motion, Order};
use crate::pending::{Met, Pendings};

pub struct Stay {
    pub id: u64,
    pub steps: u64,
    pub brake: Brake,
    pub motion: Motion,
    /// The last order, as answered.
    pub order: Order,
    pub end: u64,
    /// The place that a pending call back wants.
    pub want: Option<u64>,
    /// Reports since it was taken; each left it pending.
    pub waits: u64,
    pub number: u64,
    pub held: Option<Held>,
    /// Reports since the one that ordered brake while the train moved, that one
    /// included; none once it has stood.
    pub braked: Option<u64>,
    /// The reports after which a held or braked train stands.
    pub held_count: u64,
}

/// A hold that no accepted lift has followed.
pub struct Held {
    pub reports: u64,
    pub moving: bool,
}

impl Stay {
    pub fn rear(&self) -> Result<u64, String> {
        let rear = self.motion.head.checked_sub(self.steps);
        rear.ok_or_else(|| format!("the rear of train {} is before the line", self.id))
    }

    /// Takes an accepted report, and tells whether the last order allowed it.
    pub fn move_to(&mut self, head: u64, speed: u64) -> Result<(), String> {
        let last = self.motion;
        let worst = last.worst(self.order, self.brake);
        self.motion = Motion {
            head,
            speed,
            level: worst.level,
        };
        let why = if head < last.head {
            "is behind its last head"
        } else if head > worst.head {
            "is beyond the worst case of its order"
        } else if speed > worst.speed {
            "is faster than the worst case of its order"
        } else {
            return Ok(());
        };
        Err(format!("train {} {why}", self.id))
    }

    /// Counts a report under hold. Once the hold has lasted for the counted
    /// ones, gives whether it found the train moving.
    pub fn count_report(&mut self) -> Option<bool> {
        let held = self.held.as_mut()?;
        held.reports += 1;
        (held.reports == self.held_count).then_some(held.moving)
    }

    /// Counts a report of a train that was braked while it moved. A stand ends
    /// the count.
    pub fn count_braked(&mut self, reached: &mut Penalties) {
        if self.motion.speed > 0 {
            self.braked = self.braked.map(|reports| reports + 1);
        } else if self.braked.take().is_some() {
            reached.stood += 1;
        }
    }

    /// Begins that count, where the report was answered with brake.
    pub fn begin_braked(&mut self, reached: &mut Penalties) {
        if self.motion.speed == 0 || self.order != Order::Brake || self.braked.is_some() {
            return;
        }
        self.braked = Some(1);
        match self.held {
            Some(_) => reached.under_hold += 1,
            None => reached.without_hold += 1,
        }
    }

    /// Takes the answered order, and tells whether a train in this place may
    /// have it. The reach comes last, since a made-up speed has no short one.
    pub fn obey(&mut self, answer: Answer, settings: Settings) -> Result<(), String> {
        let id = self.id;
        let [number, cap, reach] = answer.values;
        let order = Order::of_numbers([number, cap])
            .ok_or_else(|| format!("train {id} is answered {number}, {cap}: no order"))?;
        self.order = order;
        if let Order::Drive(cap) = order {
            if self.held.is_some() {
                return Err(format!("train {id} is held, but may drive"));
            }
            if cap > settings.traction || self.motion.speed + cap > settings.ceiling {
                return Err(format!("train {id} may drive with too great a cap, {cap}"));
            }
        }
        let own = self.motion.reach(order, self.brake);
        if reach != own {
            return Err(format!(
                "the reach of train {id} is {own} by its order, answered as {reach}"
            ));
        }
        if reach > self.end {
            return Err(format!("the reach of train {id} is past its end"));
        }
        if order != Order::Brake && self.want.is_some_and(|place| reach > place) {
            return Err(format!(
                "train {id} may drive past where it is called back to"
            ));
        }
        Ok(())
    }

    /// From the head to the end.
    pub fn may_be_called_back(&self, place: u64) -> bool {
        (self.motion.head..=self.end).contains(&place)
    }

    /// Takes an accepted call back. It is pending where its place lies below the
    /// reach, which is worked out from the last report and what that was answered.
    pub fn call_back(&mut self, place: u64, reached: &mut Pendings) -> Result<(), String> {
        let taken = self.may_be_called_back(place);
        let is_pending = place < self.motion.reach(self.order, self.brake);
        if let Some(old) = self.want.take() {
            reached.replace(old, place, is_pending);
        }
        if is_pending {
            self.want = Some(place);
            self.waits = 0;
            if self.braked.is_some() {
                reached.count(Met::Marked);
            }
        } else {
            self.end = place;
        }
        if !taken {
            return Err(format!(
                "train {} is called back to {place}, behind its head or beyond its end",
                self.id
            ));
        }
        Ok(())
    }

    /// After a report that was answered with this reach: a pending call back is
    /// done where the reach is at or before its place, or where the train stands
    /// past it.
    pub fn settle(&mut self, reach: u64, reached: &mut Pendings) {
        let Some(place) = self.want else {
            return;
        };
        let Motion { head, speed, .. } = self.motion;
        let (end, met) = if reach <= place {
            (place, self.done())
        } else if speed == 0 && head > place {
            (head, Met::Past)
        } else {
            self.waits += 1;
            return reached.count(Met::Left);
        };
        self.end = end;
        self.want = None;
        reached.count(met);
    }

    /// How a call back ends whose place the end moves to.
    fn done(&self) -> Met {
        match (self.motion.speed, self.order) {
            (0, _) => Met::Standing,
            (_, Order::Drive(_)) => Met::Driving,
            (_, Order::Brake) => Met::Braking,
        }
    }

    /// Counts what happens while a call back is pending.
    pub fn count_pending(&self, met: Met, reached: &mut Pendings) {
        if self.want.is_some() {
            reached.count(met);
        }
    }

    /// Whether a call back to there may have been refused.
    pub fn refuse_call_back(
        &self,
        place: u64,
        answer: Answer,
        reached: &mut Pendings,
    ) -> Result<(), String> {
        if answer != Answer::refused(Refusal::Place) {
            return Ok(());
        }
        if self.may_be_called_back(place) {
            return Err(format!(
                "train {} is not called back to {place}, from its head to its end",
                self.id
            ));
        }
        self.count_pending(Met::Refused, reached);
        Ok(())
    }

    /// Whether an extension may have been refused with what is pending.
    pub fn refuse_extension(
        &self,
        number: u64,
        has_track: bool,
        answer: Answer,
        reached: &mut Pendings,
    ) -> Result<(), String> {
        let id = self.id;
        let is_pending = self.want.is_some() && number > self.number;
        if answer == Answer::refused(Refusal::BeyondLimit) && is_pending {
            return Err(format!(
                "the track of train {id} is judged with a call back pending"
            ));
        }
        if answer != Answer::refused(Refusal::Pending) {
            return Ok(());
        }
        if !is_pending {
            return Err(format!(
                "train {id} asks for no new track with a call back pending"
            ));
        }
        reached.count(if has_track {
            Met::WithTrack
        } else {
            Met::WithoutTrack
        });
        Ok(())
    }
}

/// The farthest end of a train behind this one, or of the first.
pub fn limit(ahead: Option<&Stay>, settings: Settings) -> Option<u64> {
    match ahead {
        None => Some(settings.line_end),
        Some(ahead) => ahead.rear().ok()?.checked_sub(settings.safety),
    }
}

pub fn check_end(stay: &Stay, ahead: Option<&Stay>, settings: Settings) -> Result<(), String> {
    if stay.motion.head > stay.end {
        return Err(format!("the head of train {} is past its end", stay.id));
    }
    let Some(ahead) = ahead else {
        if stay.end > settings.line_end {
            return Err(format!("the end of train {} is past the line end", stay.id));
        }
        return Ok(());
    };
    if stay.end + settings.safety > ahead.rear()? {
        return Err(format!(
            "the end of train {} is too near the rear of train {}",
            stay.id, ahead.id
        ));
    }
    Ok(())
}

pub fn check_held(stay: &Stay) -> Result<(), String> {
    let Some(held) = &stay.held else {
        return Ok(());
    };
    if held.reports >= stay.held_count && stay.motion.speed > 0 {
        return Err(format!(
            "train {} moves after {} reports under hold",
            stay.id, held.reports
        ));
    }
    Ok(())
}

/// A stand ends the count, so a train that has one moves.
pub fn check_braked(stay: &Stay) -> Result<(), String> {
    match stay.braked {
        Some(reports) if reports >= stay.held_count => Err(format!(
            "train {} moves after {reports} reports, the first of which braked it",
            stay.id
        )),
        _ => Ok(()),
    }
}

/// A report leaves a call back pending only where it brakes a moving train. So a
/// stand ends it, and it is done within the reports that are counted for a braked
/// train.
pub fn check_pending(stay: &Stay) -> Result<(), String> {
    if stay.want.is_none() {
        return Ok(());
    }
    let why = if stay.motion.speed == 0 {
        "though it stands"
    } else if stay.order != Order::Brake {
        "though it does not brake"
    } else if stay.waits >= stay.held_count {
        "though all counted reports are over"
    } else {
        return Ok(());
    };
    Err(format!("train {} has a call back pending {why}", stay.id))
}

/// Neither a report nor a call back moves an end forward.
pub fn check_nearer(stay: &Stay, end_before: u64) -> Result<(), String> {
    if stay.end > end_before {
        return Err(format!("the end of train {} moves forward", stay.id));
    }
    Ok(())
}
