//! The calls of document 01, their callers and their answers, as plain values.
//! Here alone stand the codes and the answer numbers.

/// An enum of numbered cases, with the list of them all.
macro_rules! numbered {
    (
        $(#[$about:meta])*
        $name:ident
        $($(#[$case_about:meta])* $case:ident = $number:literal,)*
    ) => {
        $(#[$about])*
        #[derive(Clone, Copy, Debug, PartialEq, Eq)]
        pub enum $name {
            $($(#[$case_about])* $case = $number,)*
        }

        impl $name {
            pub const ALL: &'static [$name] = &[$($name::$case,)*];

            pub const fn number(self) -> u64 {
                self as u64
            }
        }
    };
}

numbered! {
    /// The code of a call.
    Code
    Open = 1,
    Enter = 2,
    Report = 3,
    Extend = 4,
    CallBack = 5,
    Hold = 6,
    Lift = 7,
    TakeOff = 8,
}

numbered! {
    /// Why a call is refused.
    Refusal
    Unreadable = 1,
    /// A call before the opening, or a second opening.
    OutOfTurn = 2,
    Setting = 3,
    /// An id, a consist or a starting number out of range.
    Entry = 4,
    KnownId = 5,
    LineFull = 6,
    EnteringHead = 7,
    NoSuchTrain = 8,
    ReportNotAllowed = 9,
    /// A request number or a length out of range.
    Request = 10,
    OldNumber = 11,
    OtherLength = 12,
    BeyondLimit = 13,
    Place = 14,
    /// Not first, or not standing under brake.
    NotLeaving = 15,
    /// A caller without the right to the call.
    NoRight = 16,
    /// New track for a train with a call back pending.
    Pending = 17,
}

/// What an opening gives.
#[derive(Clone, Copy, Debug, PartialEq, Eq)]
pub struct Settings {
    pub line_end: u64,
    pub safety: u64,
    pub ceiling: u64,
    pub traction: u64,
}

/// What an entering gives. The length is in feet.
#[derive(Clone, Copy, Debug, PartialEq, Eq)]
pub struct Entry {
    pub id: u64,
    pub head: u64,
    pub feet: u64,
    pub class: u64,
    pub start: u64,
}

#[derive(Clone, Copy, Debug, PartialEq, Eq)]
pub enum Call {
    Open(Settings),
    Enter(Entry),
    Report { id: u64, head: u64, speed: u64 },
    Extend { id: u64, number: u64, length: u64 },
    CallBack { id: u64, place: u64 },
    Hold { id: u64 },
    Lift { id: u64 },
    TakeOff { id: u64 },
}

impl Call {
    pub fn code(&self) -> Code {
        match self {
            Call::Open(_) => Code::Open,
            Call::Enter(_) => Code::Enter,
            Call::Report { .. } => Code::Report,
            Call::Extend { .. } => Code::Extend,
            Call::CallBack { .. } => Code::CallBack,
            Call::Hold { .. } => Code::Hold,
            Call::Lift { .. } => Code::Lift,
            Call::TakeOff { .. } => Code::TakeOff,
        }
    }

    /// The id that a call names. An opening names none.
    pub fn id(&self) -> Option<u64> {
        match *self {
            Call::Open(_) => None,
            Call::Enter(entry) => Some(entry.id),
            Call::Report { id, .. }
            | Call::Extend { id, .. }
            | Call::CallBack { id, .. }
            | Call::Hold { id }
            | Call::Lift { id }
            | Call::TakeOff { id } => Some(id),
        }
    }
}

/// A call and the number of its caller: what an input line says.
#[derive(Clone, Copy, Debug, PartialEq, Eq)]
pub struct Message {
    pub caller: u64,
    pub call: Call,
}

/// What is asked at the desk: a call, or a preview of one.
#[derive(Clone, Copy, Debug, PartialEq, Eq)]
pub enum Asked {
    Call(Message),
    Preview(Message),
}

impl Asked {
    pub fn message(&self) -> Message {
        match *self {
            Asked::Call(message) | Asked::Preview(message) => message,
        }
    }
}

/// An answer number and its three values, zeros with a refusal.
#[derive(Clone, Copy, Debug, PartialEq, Eq)]
pub struct Answer {
    pub number: u64,
    pub values: [u64; 3],
}

impl Answer {
    pub const DONE: Answer = Answer::accepted([0; 3]);

    pub const fn accepted(values: [u64; 3]) -> Answer {
        Answer { number: 0, values }
    }

    pub const fn refused(why: Refusal) -> Answer {
        Answer {
            number: why.number(),
            values: [0; 3],
        }
    }

    pub fn is_accepted(&self) -> bool {
        self.number == 0
    }
}

/// A train's record in numbers: id, length in feet, B, j, head, speed, level, the
/// order and its cap, end, starting number, the last accepted number and its
/// length, held, penalty, and the place that a pending call back wants, or else
/// the end again.
pub type Record = [u64; RECORD_FIELDS];

pub const RECORD_FIELDS: usize = 16;

/// The field of the end.
const END: usize = 9;
/// The field of the place that is wanted.
const WANT: usize = 15;

/// What the desk answers: an answer, and the record that it shows.
#[derive(Clone, Copy, Debug, PartialEq, Eq)]
pub struct Shown {
    pub answer: Answer,
    pub record: Record,
}

impl Shown {
    /// Whether its train has a call back pending.
    pub fn has_pending(&self) -> bool {
        self.record[WANT] != self.record[END]
    }
}
