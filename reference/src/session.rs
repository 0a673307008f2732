//! The session program as a value: bytes in, answer lines out.

use crate::call::{Answer, Call, Message, Refusal, Settings};
use crate::feed::{self, Fed, Program};
use crate::line::Line;
use crate::rights::has_right;
use crate::wire::{put_answer, read_message};

pub type Session = Fed<Controller>;

/// The line controller: the table, once an opening has been accepted.
#[derive(Clone, Default)]
pub struct Controller {
    line: Option<Line>,
}

/// The whole output for a whole input.
pub fn run(input: &[u8]) -> Vec<u8> {
    feed::run::<Controller>(input)
}

impl Session {
    /// The table, once an opening has been accepted.
    pub fn line(&self) -> Option<&Line> {
        self.program().line()
    }
}

impl Program for Controller {
    fn answer_line(&mut self, line: Option<&[u8]>, out: &mut Vec<u8>) {
        let answer = match line.and_then(read_message) {
            Some(message) => self.answer(message),
            None => Answer::refused(Refusal::Unreadable),
        };
        put_answer(answer, out);
    }
}

impl Controller {
    pub fn line(&self) -> Option<&Line> {
        self.line.as_ref()
    }

    pub fn answer(&mut self, message: Message) -> Answer {
        if !self.is_in_turn(message.call) {
            return Answer::refused(Refusal::OutOfTurn);
        }
        if !has_right(message) {
            return Answer::refused(Refusal::NoRight);
        }
        self.make(message.call)
    }

    /// The opening comes first, and once.
    fn is_in_turn(&self, call: Call) -> bool {
        let opens = matches!(call, Call::Open(_));
        opens == self.line.is_none()
    }

    fn make(&mut self, call: Call) -> Answer {
        match (&mut self.line, call) {
            (None, Call::Open(settings)) => self.open(settings),
            (None, _) => Answer::refused(Refusal::OutOfTurn),
            (Some(line), call) => line.call(call),
        }
    }

    fn open(&mut self, settings: Settings) -> Answer {
        match Line::open(settings) {
            Ok(line) => {
                self.line = Some(line);
                Answer::DONE
            }
            Err(refusal) => refusal,
        }
    }
}
