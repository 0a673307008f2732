//! Made-up histories for the claim checker.

use reference::brake::Brake;
use reference::call::{Answer, Call, Entry, Message, Settings};
use reference::callers::usual;
use reference::claim::{check, Broken, Reached};
use reference::motion::Order;
use reference::wire::{put_answer, put_message};

pub const LINE_END: u64 = 1_000_000_000;
pub const SAFETY: u64 = 1000;
pub const CEILING: u64 = 5000;
pub const TRACTION: u64 = 100;
/// Where the trains of most histories enter.
pub const HEAD: u64 = 10_000_000;
/// With cap 7 a standing train comes to a speed of 7. Then it travels 14 steps
/// at level 0, and 49 divided by the level, rounded up, at the next one.
pub const CAP: u64 = 7;
pub const REACH: u64 = HEAD + 7 + 14 + 1;

/// Calls with the answers that a program might have given.
#[derive(Default)]
pub struct Made {
    pub input: Vec<u8>,
    pub output: Vec<u8>,
}

impl Made {
    pub fn line() -> Made {
        let mut made = Made::default();
        made.accepted(opening());
        made
    }

    pub fn answered(&mut self, call: Call, answer: Answer) {
        self.told(usual(call), answer);
    }

    pub fn told(&mut self, message: Message, answer: Answer) {
        put_message(message, &mut self.input);
        put_answer(answer, &mut self.output);
    }

    /// A line with one train that has so many steps to go.
    pub fn one_train(free: u64) -> Made {
        let mut made = Made::line();
        made.enter(1, HEAD);
        made.extend(1, 1, free, HEAD + free);
        made
    }

    /// A line with one train that was just told to drive with `CAP`.
    pub fn driving() -> Made {
        let mut made = Made::one_train(1000);
        made.report(HEAD, 0, Order::Drive(CAP), REACH);
        made
    }

    pub fn accepted(&mut self, call: Call) {
        self.answered(call, Answer::DONE);
    }

    pub fn enter(&mut self, id: u64, head: u64) {
        let Brake { full, growth } = brake();
        self.enter_with(id, head, [full, growth, head]);
    }

    pub fn enter_with(&mut self, id: u64, head: u64, figures: [u64; 3]) {
        let entry = Entry {
            id,
            head,
            feet: 1,
            class: 1,
            start: 0,
        };
        self.answered(Call::Enter(entry), Answer::accepted(figures));
    }

    /// A report of train 1.
    pub fn report(&mut self, head: u64, speed: u64, order: Order, reach: u64) {
        let [number, cap] = order.numbers();
        self.report_with(1, head, speed, [number, cap, reach]);
    }

    pub fn report_with(&mut self, id: u64, head: u64, speed: u64, values: [u64; 3]) {
        let call = Call::Report { id, head, speed };
        self.answered(call, Answer::accepted(values));
    }

    pub fn extend(&mut self, id: u64, number: u64, length: u64, end: u64) {
        let call = Call::Extend { id, number, length };
        self.answered(call, Answer::accepted([end, 0, 0]));
    }

    pub fn check(&self) -> Result<Reached, Broken> {
        check(&self.input, &self.output)
    }

    /// Refused after its last line, for this reason.
    pub fn assert_broken(&self, why: &str) {
        let broken = self.check().expect_err("the history breaks the claim");
        assert_eq!(broken.line, self.output.split(|&b| b == b'\n').count() - 1);
        assert!(broken.why.contains(why), "{broken:?}");
    }

    pub fn assert_kept(&self) {
        assert_eq!(self.check().err(), None);
    }
}

pub fn opening() -> Call {
    Call::Open(Settings {
        line_end: LINE_END,
        safety: SAFETY,
        ceiling: CEILING,
        traction: TRACTION,
    })
}

pub fn brake() -> Brake {
    Brake::of_consist(1, 1).expect("the consist is in range")
}
