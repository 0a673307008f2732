//! Demand 3's claim, what document 01 says of the answers to reports, which call
//! backs are pending, and who may call what, checked from calls and their answers
//! alone. Nothing here reads the table of an implementation: what a train was
//! ordered is what it was answered.

use crate::brake::{Brake, STEPS_PER_FOOT};
use crate::call::{Answer, Call, Entry, Message, Refusal, Settings};
use crate::callers::TurnedAway;
use crate::motion::{Motion, Order};
use crate::orders::Orders;
use crate::pending::{Met, Pendings};
use crate::stay::{
    check_braked, check_end, check_held, check_nearer, check_pending, limit, Held, Stay,
};
use crate::wire::{lines, read_answer, read_message, whole_line};

/// The claim does not hold after this line, or its answer is wrong. Lines are
/// counted from 1.
#[derive(Clone, Debug, PartialEq, Eq)]
pub struct Broken {
    pub line: usize,
    pub why: String,
}

/// How far a history tested the claims about held and braked trains, about call
/// backs and about callers, and the search for a cap.
#[derive(Clone, Copy, Debug, Default, PartialEq, Eq)]
pub struct Reached {
    /// Holds that lasted for the counted reports.
    pub holds: u64,
    /// Those of them that found the train moving.
    pub moving: u64,
    pub penalties: Penalties,
    pub pendings: Pendings,
    pub turned_away: TurnedAway,
    pub orders: Orders,
}

/// Brakes of moving trains, each until the train stands.
#[derive(Clone, Copy, Debug, Default, PartialEq, Eq)]
pub struct Penalties {
    /// Begun for want of track, with no hold.
    pub without_hold: u64,
    /// Begun under a hold.
    pub under_hold: u64,
    /// Ended by a stand.
    pub stood: u64,
    /// New track for a train under such a brake.
    pub extended: u64,
    /// Lifts of a hold from one.
    pub lifted: u64,
    /// The most trains under one at a time.
    pub together: u64,
}

impl Penalties {
    /// Those of another list.
    pub fn add(&mut self, other: Penalties) {
        self.without_hold += other.without_hold;
        self.under_hold += other.under_hold;
        self.stood += other.stood;
        self.extended += other.extended;
        self.lifted += other.lifted;
        self.together = self.together.max(other.together);
    }
}

/// Checks the claim after every line of a session, and its answer.
pub fn check(input: &[u8], output: &[u8]) -> Result<Reached, Broken> {
    let mut history = History::default();
    for (index, (line, answer)) in lines(input).zip(lines(output)).enumerate() {
        history.take(line, answer).map_err(|why| Broken {
            line: index + 1,
            why,
        })?;
    }
    Ok(history.reached)
}

/// What the accepted calls on one table say.
#[derive(Default)]
struct History {
    settings: Option<Settings>,
    /// The stays not ended, in entering order.
    stays: Vec<Stay>,
    reached: Reached,
}

impl History {
    fn take(&mut self, line: &[u8], answer: &[u8]) -> Result<(), String> {
        let answer = whole_line(answer)
            .and_then(read_answer)
            .ok_or("the answer line is unreadable")?;
        let Some(message) = whole_line(line).and_then(read_message) else {
            return self.pass_over(line, answer);
        };
        self.judge_caller(message, answer)?;
        if !answer.is_accepted() {
            return self.refuse(message.call, answer);
        }
        let end_before = self.named(message.call).map(|stay| stay.end);
        // The claim first: where it is broken, the answer is wrong as well.
        let answered = self.accept(message.call, answer);
        self.check()?;
        self.check_called(message.call, end_before)?;
        answered
    }

    /// An unreadable line has no caller.
    fn pass_over(&mut self, line: &[u8], answer: Answer) -> Result<(), String> {
        if answer.is_accepted() {
            return Err("an unreadable line is accepted".to_string());
        }
        if answer.number == Refusal::NoRight.number() {
            return Err("the caller of an unreadable line is turned away".to_string());
        }
        let text = whole_line(line).unwrap_or_default();
        self.reached.turned_away.count_unreadable(text);
        Ok(())
    }

    /// A caller with the right is never turned away. One without it always is,
    /// except where the call is out of turn.
    fn judge_caller(&mut self, message: Message, answer: Answer) -> Result<(), String> {
        let Message { caller, call } = message;
        let code = call.code();
        if may_call(caller, call) {
            if answer.number == Refusal::NoRight.number() {
                return Err(format!("{caller} may {code:?}, but is turned away"));
            }
            return Ok(());
        }
        let opens = matches!(call, Call::Open(_));
        let in_turn = opens != self.settings.is_some();
        let refusal = if in_turn {
            Refusal::NoRight
        } else {
            Refusal::OutOfTurn
        };
        if answer != Answer::refused(refusal) {
            return Err(format!(
                "{caller} may not {code:?}, but is answered {}",
                answer.number
            ));
        }
        let is_on_line = self.stays.iter().any(|stay| stay.id == caller);
        let counts = &mut self.reached.turned_away;
        counts.count(message, is_on_line, answer);
        Ok(())
    }

    fn accept(&mut self, call: Call, answer: Answer) -> Result<(), String> {
        match call {
            Call::Open(settings) => {
                self.settings = Some(settings);
                self.stays.clear();
                Ok(())
            }
            Call::Enter(entry) => self.enter(entry, answer),
            Call::Report { id, head, speed } => self.report(id, head, speed, answer),
            Call::Extend { id, number, length } => self.extend(id, number, length, answer),
            Call::CallBack { id, place } => {
                let stay = find(&mut self.stays, id)?;
                stay.call_back(place, &mut self.reached.pendings)
            }
            Call::Hold { id } => self.hold(id),
            Call::Lift { id } => self.lift(id),
            Call::TakeOff { id } => {
                find(&mut self.stays, id)?;
                self.stays.retain(|stay| stay.id != id);
                Ok(())
            }
        }
    }

    /// A refusal changes nothing. Those of call backs and of new track are judged
    /// by what is pending.
    fn refuse(&mut self, call: Call, answer: Answer) -> Result<(), String> {
        let is_named = |stay: &Stay| Some(stay.id) == call.id();
        let found = self.stays.iter().position(is_named);
        let (Some(index), Some(settings)) = (found, self.settings) else {
            return Ok(());
        };
        let stay = &self.stays[index];
        let reached = &mut self.reached.pendings;
        match call {
            Call::CallBack { place, .. } => stay.refuse_call_back(place, answer, reached),
            Call::Extend { number, length, .. } => {
                let ahead = index.checked_sub(1).map(|ahead| &self.stays[ahead]);
                let is_free = |limit| stay.end + length <= limit;
                let has_track = limit(ahead, settings).is_some_and(is_free);
                stay.refuse_extension(number, has_track, answer, reached)
            }
            _ => Ok(()),
        }
    }

    fn hold(&mut self, id: u64) -> Result<(), String> {
        let stay = find(&mut self.stays, id)?;
        let moving = stay.motion.speed > 0;
        stay.held.get_or_insert(Held { reports: 0, moving });
        stay.count_pending(Met::Held, &mut self.reached.pendings);
        Ok(())
    }

    fn lift(&mut self, id: u64) -> Result<(), String> {
        let stay = find(&mut self.stays, id)?;
        let lifted = stay.held.take().is_some() && stay.braked.is_some();
        self.reached.penalties.lifted += u64::from(lifted);
        stay.count_pending(Met::Lifted, &mut self.reached.pendings);
        Ok(())
    }

    fn enter(&mut self, entry: Entry, answer: Answer) -> Result<(), String> {
        let settings = self.settings.ok_or("an entering before the opening")?;
        let brake = Brake::of_consist(entry.feet, entry.class)
            .ok_or("an entering out of range is accepted")?;
        if self.stays.iter().any(|stay| stay.id == entry.id) {
            return Err(format!("train {} is on the line twice", entry.id));
        }
        self.stays.push(Stay {
            id: entry.id,
            steps: entry.feet * STEPS_PER_FOOT,
            brake,
            motion: Motion {
                head: entry.head,
                speed: 0,
                level: brake.full,
            },
            order: Order::Brake,
            end: entry.head,
            want: None,
            waits: 0,
            number: entry.start,
            held: None,
            braked: None,
            held_count: brake.held_count(settings.ceiling),
        });
        let figures = [brake.full, brake.growth, entry.head];
        if answer.values != figures {
            return Err(format!(
                "the figures of train {} are {figures:?} by its entering, answered as {:?}",
                entry.id, answer.values
            ));
        }
        Ok(())
    }

    fn report(&mut self, id: u64, head: u64, speed: u64, answer: Answer) -> Result<(), String> {
        let settings = self.settings.ok_or("a report before the opening")?;
        let reached = &mut self.reached;
        let stay = find(&mut self.stays, id)?;
        let allowed = stay.move_to(head, speed);
        if let Some(moving) = stay.count_report() {
            reached.holds += 1;
            reached.moving += u64::from(moving);
        }
        stay.count_braked(&mut reached.penalties);
        let answered = allowed.and_then(|()| stay.obey(answer, settings));
        if answered.is_ok() && stay.held.is_none() && stay.braked.is_none() {
            reached
                .orders
                .count(stay.order, speed, stay.brake, settings);
        }
        stay.begin_braked(&mut reached.penalties);
        stay.settle(answer.values[2], &mut reached.pendings);
        let together = self
            .stays
            .iter()
            .filter(|stay| stay.braked.is_some())
            .count() as u64;
        reached.penalties.together = reached.penalties.together.max(together);
        answered
    }

    /// A number above the last accepted or starting one adds its length, where no
    /// call back is pending.
    fn extend(&mut self, id: u64, number: u64, length: u64, answer: Answer) -> Result<(), String> {
        let stay = find(&mut self.stays, id)?;
        let new = number > stay.number;
        if new && stay.want.is_some() {
            return Err(format!(
                "train {id} gets new track with a call back pending"
            ));
        }
        stay.count_pending(Met::Repeated, &mut self.reached.pendings);
        if new {
            stay.number = number;
            stay.end += length;
        }
        let (end, braked) = (stay.end, stay.braked.is_some());
        self.reached.penalties.extended += u64::from(new && braked);
        if answer.values[0] != end {
            return Err(format!(
                "the end of train {id} is {end} by its calls, answered as {}",
                answer.values[0]
            ));
        }
        Ok(())
    }

    /// The stay of the train that a call names.
    fn named(&self, call: Call) -> Option<&Stay> {
        let is_named = |stay: &&Stay| Some(stay.id) == call.id();
        self.stays.iter().find(is_named)
    }

    /// What a report and a call back leave of the end that the train had.
    fn check_called(&self, call: Call, end_before: Option<u64>) -> Result<(), String> {
        let (Some(stay), Some(end_before)) = (self.named(call), end_before) else {
            return Ok(());
        };
        match call {
            Call::Report { .. } => {
                check_nearer(stay, end_before)?;
                check_pending(stay)
            }
            Call::CallBack { .. } => check_nearer(stay, end_before),
            _ => Ok(()),
        }
    }

    fn check(&self) -> Result<(), String> {
        let Some(settings) = self.settings else {
            return Ok(());
        };
        let mut ahead: Option<&Stay> = None;
        let mut nearest_rear = u64::MAX;
        for stay in &self.stays {
            // The nearest of all rears, since no two trains may overlap.
            if stay.motion.head > nearest_rear {
                return Err(format!("train {} overlaps an earlier one", stay.id));
            }
            nearest_rear = nearest_rear.min(stay.rear()?);
            check_end(stay, ahead, settings)?;
            check_held(stay)?;
            check_braked(stay)?;
            ahead = Some(stay);
        }
        Ok(())
    }
}

/// The stay of a train whose call is accepted.
fn find(stays: &mut [Stay], id: u64) -> Result<&mut Stay, String> {
    stays
        .iter_mut()
        .find(|stay| stay.id == id)
        .ok_or_else(|| format!("train {id} is not on the line, but its call is accepted"))
}

/// Whether a caller has the right to a call, in the numbers of document 02.
pub fn may_call(caller: u64, call: Call) -> bool {
    match call {
        Call::Open(_) | Call::CallBack { .. } | Call::Hold { .. } | Call::Lift { .. } => {
            caller == 0
        }
        Call::Enter(_) | Call::TakeOff { .. } => caller == 70_000,
        Call::Report { id, .. } | Call::Extend { id, .. } => {
            caller == id && (1..=65_535).contains(&id)
        }
    }
}
