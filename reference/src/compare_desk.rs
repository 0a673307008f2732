//! Compares the desk program with the second implementation, and its answers
//! with one another: a preview tells what its call is answered, and leaves
//! everything as it is.

use crate::call::{Answer, Asked, Call, Code, Message, Refusal, Shown};
use crate::callers::{TurnedAway, Wrong};
use crate::claim::may_call;
use crate::compare::{self, first_difference, Counts, Failure, ANSWERS, CODES};
use crate::desk;
use crate::rare::fewer_than;
use crate::session::Controller;
use crate::spoil::long_runs;
use crate::wire::{
    has_preview_code, lines, put_shown, read_asked, read_shown, whole_line, ANSWER_BYTES,
};

/// What the compared lists of the desk held.
#[derive(Clone, Debug, Default, PartialEq, Eq)]
pub struct DeskCounts {
    pub lines: u64,
    /// What is left of the lists without their previews.
    pub calls: Counts,
    /// Previews by call code and answer number. Those with code 0 are unreadable.
    pub previews: [[u64; ANSWERS]; CODES],
    /// Previews that show a call back pending, by call code.
    pub pending: [u64; CODES],
    /// Previews from callers without the right.
    pub turned_away: TurnedAway,
    /// Calls right after their own previews, by call code.
    pub foretold: [Foretold; CODES],
    /// Long runs of empty lines.
    pub long_runs: u64,
}

/// How calls of a code were answered that came right after their own previews.
#[derive(Clone, Copy, Debug, Default, PartialEq, Eq)]
pub struct Foretold {
    pub accepted: u64,
    pub refused: u64,
    /// Openings on an open line, which are 2, whatever the preview told.
    pub out_of_turn: u64,
}

/// The calls that leave a call back pending, or may.
const SHOWING_PENDING: [Code; 5] = [
    Code::Report,
    Code::Extend,
    Code::CallBack,
    Code::Hold,
    Code::Lift,
];

/// The answers that the previews of a call can get, by the order of the checks in
/// the papers.
pub fn answers_to(code: Code) -> &'static [usize] {
    match code {
        Code::Open => &[0, 3, 16],
        Code::Enter => &[0, 2, 4, 5, 6, 7, 16],
        Code::Report => &[0, 2, 8, 9, 16],
        Code::Extend => &[0, 2, 8, 10, 11, 12, 13, 16, 17],
        Code::CallBack => &[0, 2, 8, 14, 16],
        Code::Hold | Code::Lift => &[0, 2, 8, 16],
        Code::TakeOff => &[0, 2, 8, 15, 16],
    }
}

/// Compares an output with the second implementation, and checks the answers in
/// it.
pub fn check(input: &[u8], output: &[u8], counts: &mut DeskCounts) -> Result<(), Failure> {
    match first_difference(&desk::run(input), output) {
        Some(failure) => Err(failure),
        None => check_answers(input, output, counts),
    }
}

/// The calls alone are a session in which the claim holds, and a preview tells
/// what its call is answered. No other output is needed for that.
pub fn check_answers(input: &[u8], output: &[u8], counts: &mut DeskCounts) -> Result<(), Failure> {
    let exchanges = exchanges(input, output)?;
    check_calls(&exchanges, &mut counts.calls)?;
    check_foretold(&exchanges, &mut counts.foretold)?;
    counts.add_previews(&exchanges);
    counts.lines += exchanges.len() as u64;
    counts.long_runs += long_runs(input);
    Ok(())
}

/// An input line and what the desk answered.
struct Exchange<'a> {
    line: &'a [u8],
    /// None where the line is unreadable.
    asked: Option<Asked>,
    answer: &'a [u8],
    shown: Shown,
}

/// The whole list, line by line.
fn exchanges<'a>(input: &'a [u8], output: &'a [u8]) -> Result<Vec<Exchange<'a>>, Failure> {
    let mut answers = lines(output);
    let exchange = |(index, line)| {
        let answer = answers.next().unwrap_or_default();
        let shown = whole_line(answer).and_then(read_shown);
        Ok(Exchange {
            line,
            asked: whole_line(line).and_then(read_asked),
            answer,
            shown: shown.ok_or_else(|| unreadable(index, answer))?,
        })
    };
    lines(input).enumerate().map(exchange).collect()
}

fn unreadable(index: usize, answer: &[u8]) -> Failure {
    Failure {
        line: index + 1,
        why: "the answer line is unreadable".to_string(),
        expected: Vec::new(),
        found: answer.to_vec(),
    }
}

impl Exchange<'_> {
    fn is_preview(&self) -> bool {
        matches!(self.asked, Some(Asked::Preview(_)))
    }

    /// Whether it opens the line.
    fn opens(&self) -> bool {
        let Some(Asked::Call(message)) = self.asked else {
            return false;
        };
        matches!(message.call, Call::Open(_)) && self.shown.answer.is_accepted()
    }

    /// The call of this line, where the line before it is a preview of the same
    /// from the same caller.
    fn foretold_by(&self, before: &Exchange) -> Option<Call> {
        match (before.asked?, self.asked?) {
            (Asked::Preview(previewed), Asked::Call(made)) if previewed == made => Some(made.call),
            _ => None,
        }
    }
}

/// Without its previews, a list is a session, and its answers are those of one.
fn check_calls(exchanges: &[Exchange], counts: &mut Counts) -> Result<(), Failure> {
    let (mut input, mut answers, mut places) = (Vec::new(), Vec::new(), Vec::new());
    for (place, exchange) in exchanges.iter().enumerate() {
        if exchange.is_preview() {
            continue;
        }
        input.extend_from_slice(exchange.line);
        answers.extend_from_slice(&exchange.answer[..ANSWER_BYTES]);
        answers.push(b'\n');
        places.push(place);
    }
    compare::check(&input, &answers, counts).map_err(|failure| Failure {
        line: places[failure.line - 1] + 1,
        why: format!("without its previews, {}", failure.why),
        ..failure
    })
}

/// A call right after its own preview gets the answer and shows the record that
/// the preview told.
fn check_foretold(exchanges: &[Exchange], counts: &mut [Foretold; CODES]) -> Result<(), Failure> {
    let mut is_open = false;
    for (index, exchange) in exchanges.iter().enumerate().skip(1) {
        let before = &exchanges[index - 1];
        is_open = is_open || before.opens();
        let Some(call) = exchange.foretold_by(before) else {
            continue;
        };
        let out_of_turn = is_open && call.code() == Code::Open;
        let expected = if out_of_turn {
            desk::refused(Refusal::OutOfTurn)
        } else {
            before.shown
        };
        if exchange.shown != expected {
            return Err(told_otherwise(index, exchange, expected));
        }
        counts[call.code() as usize].count(exchange.shown.answer, out_of_turn);
    }
    Ok(())
}

fn told_otherwise(index: usize, exchange: &Exchange, told: Shown) -> Failure {
    let mut expected = Vec::new();
    put_shown(told, &mut expected);
    Failure {
        line: index + 1,
        why: "its preview told otherwise".to_string(),
        expected,
        found: exchange.answer.to_vec(),
    }
}

impl Foretold {
    fn count(&mut self, answer: Answer, out_of_turn: bool) {
        if out_of_turn {
            self.out_of_turn += 1;
        } else if answer.is_accepted() {
            self.accepted += 1;
        } else {
            self.refused += 1;
        }
    }
}

impl DeskCounts {
    pub fn by_code(&self, code: Code) -> u64 {
        self.previews[code as usize].iter().sum()
    }

    pub fn by_number(&self, number: usize) -> u64 {
        self.previews.iter().map(|row| row[number]).sum()
    }

    pub fn pending(&self, code: Code) -> u64 {
        self.pending[code as usize]
    }

    pub fn foretold(&self, code: Code) -> Foretold {
        self.foretold[code as usize]
    }

    /// A table runs along, to say which trains are on the line.
    fn add_previews(&mut self, exchanges: &[Exchange]) {
        let mut controller = Controller::default();
        for exchange in exchanges {
            match exchange.asked {
                Some(Asked::Call(message)) => {
                    controller.answer(message);
                }
                Some(Asked::Preview(message)) => {
                    let caller = controller
                        .line()
                        .and_then(|line| line.train(message.caller));
                    self.add_preview(message, caller.is_some(), exchange.shown);
                }
                None => self.add_unreadable(exchange),
            }
        }
    }

    fn add_preview(&mut self, message: Message, is_on_line: bool, shown: Shown) {
        let (Message { caller, call }, answer) = (message, shown.answer);
        let code = call.code() as usize;
        self.previews[code][answer.number as usize] += 1;
        self.pending[code] += u64::from(shown.has_pending());
        if !may_call(caller, call) {
            self.turned_away.count(message, is_on_line, answer);
        }
    }

    fn add_unreadable(&mut self, exchange: &Exchange) {
        if !has_preview_code(exchange.line) {
            return;
        }
        self.previews[0][exchange.shown.answer.number as usize] += 1;
        let text = whole_line(exchange.line).unwrap_or_default();
        self.turned_away.count_unreadable(text);
    }

    /// What came up less often than this, in words.
    pub fn rare(&self, least: u64) -> Vec<String> {
        let mut counts = vec![
            ("unreadable previews".to_string(), self.previews[0][1]),
            ("previews too early".to_string(), self.turned_away.too_early),
            ("callers too wide".to_string(), self.turned_away.too_wide),
            (
                "openings on an open line after their previews".to_string(),
                self.foretold(Code::Open).out_of_turn,
            ),
        ];
        for &code in Code::ALL {
            counts.extend(self.previews_of(code));
            let Foretold {
                accepted, refused, ..
            } = self.foretold(code);
            counts.push((format!("{code:?} accepted after its preview"), accepted));
            counts.push((format!("{code:?} refused after its preview"), refused));
        }
        for code in SHOWING_PENDING {
            let name = format!("previews of {code:?} with a call back pending");
            counts.push((name, self.pending(code)));
        }
        counts.extend(self.turned_away.named());
        // On an open line a train may well ask what an opening would be answered.
        let opening = self.turned_away.by_kind(Wrong::Other, Code::Open);
        counts.push(("Open by Other".to_string(), opening));
        fewer_than(least, counts)
    }

    /// The previews of a code by each answer that they can get.
    fn previews_of(&self, code: Code) -> impl Iterator<Item = (String, u64)> + '_ {
        let row = &self.previews[code as usize];
        answers_to(code).iter().map(move |&number| {
            (
                format!("previews of {code:?} answered {number}"),
                row[number],
            )
        })
    }
}
