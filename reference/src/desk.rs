//! The desk program as a value: the session's calls, and previews of them. Each
//! answer comes with the record that it shows.

use crate::call::{Answer, Asked, Call, Message, Refusal, Shown};
use crate::feed::{self, Program};
use crate::session::Controller;
use crate::train::Train;
use crate::wire::{put_shown, read_asked};

#[derive(Default)]
pub struct Desk {
    controller: Controller,
}

/// The whole output for a whole input.
pub fn run(input: &[u8]) -> Vec<u8> {
    feed::run::<Desk>(input)
}

impl Program for Desk {
    fn answer_line(&mut self, line: Option<&[u8]>, out: &mut Vec<u8>) {
        let shown = match line.and_then(read_asked) {
            Some(asked) => self.answer(asked),
            None => refused(Refusal::Unreadable),
        };
        put_shown(shown, out);
    }
}

impl Desk {
    fn answer(&mut self, asked: Asked) -> Shown {
        match asked {
            Asked::Call(message) => made(&mut self.controller, message),
            Asked::Preview(message) => self.preview(message),
        }
    }

    /// The call is made on a copy.
    fn preview(&self, message: Message) -> Shown {
        let mut copy = self.copy_for(message.call);
        made(&mut copy, message)
    }

    /// An opening makes a table of its own. So its preview has none, and whether
    /// a line is open here does not matter.
    fn copy_for(&self, call: Call) -> Controller {
        match call {
            Call::Open(_) => Controller::default(),
            _ => self.controller.clone(),
        }
    }
}

/// Makes a call, and shows the named train's record after it.
fn made(controller: &mut Controller, message: Message) -> Shown {
    let answer = controller.answer(message);
    let shown = train_after(controller, message.call, answer);
    Shown {
        answer,
        record: shown.unwrap_or(Train::NONE).record(),
    }
}

/// The train that an accepted call named. A taking off leaves none, and an
/// opening names none.
fn train_after(controller: &Controller, call: Call, answer: Answer) -> Option<Train> {
    if !answer.is_accepted() {
        return None;
    }
    controller.line()?.train(call.id()?)
}

/// A refusal has no train to show.
pub fn refused(why: Refusal) -> Shown {
    Shown {
        answer: Answer::refused(why),
        record: Train::NONE.record(),
    }
}
