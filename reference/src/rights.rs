//! Who may make which call. A right is judged from the caller, the call and the
//! id that it names. No table is at hand here.

use crate::call::{Call, Message};
use crate::line::LAST_ID;

/// The dispatcher's number.
pub const DISPATCHER: u64 = 0;
/// The yard's number.
pub const YARD: u64 = 70_000;

/// What a caller is.
#[derive(Clone, Copy, Debug, PartialEq, Eq)]
pub enum Role {
    Dispatcher,
    Yard,
    /// The train with this id.
    Train(u64),
}

impl Role {
    /// None where nobody has this number.
    pub fn of_caller(caller: u64) -> Option<Role> {
        match caller {
            DISPATCHER => Some(Role::Dispatcher),
            YARD => Some(Role::Yard),
            1..=LAST_ID => Some(Role::Train(caller)),
            _ => None,
        }
    }

    pub fn may(self, call: Call) -> bool {
        match self {
            Role::Dispatcher => dispatcher_may(call),
            Role::Yard => yard_may(call),
            Role::Train(own) => train_may(own, call),
        }
    }
}

pub fn has_right(message: Message) -> bool {
    Role::of_caller(message.caller).is_some_and(|role| role.may(message.call))
}

fn dispatcher_may(call: Call) -> bool {
    matches!(
        call,
        Call::Open(_) | Call::CallBack { .. } | Call::Hold { .. } | Call::Lift { .. }
    )
}

fn yard_may(call: Call) -> bool {
    matches!(call, Call::Enter(_) | Call::TakeOff { .. })
}

/// A train speaks for itself only.
fn train_may(own: u64, call: Call) -> bool {
    match call {
        Call::Report { id, .. } => id == own,
        Call::Extend { id, .. } => id == own,
        _ => false,
    }
}
