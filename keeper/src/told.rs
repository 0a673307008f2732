//! What calls and their answers tell of a line.

use std::mem;

/// Columns of the code and of the first number, the id.
const CODE: std::ops::Range<usize> = 0..2;
const ID: std::ops::Range<usize> = 2..16;

#[derive(Default)]
pub struct Told {
    pub calls: u64,
    /// The accepted opening and its answer.
    pub opening: (Vec<u8>, Vec<u8>),
    /// The ids of the trains on the line, front train first.
    pub trains: Vec<String>,
    /// The last call and its answer.
    pub last: (Vec<u8>, Vec<u8>),
    had_a_train: bool,
}

impl Told {
    pub fn add(&mut self, call: &[u8], answer: &[u8]) {
        self.calls += 1;
        call.clone_into(&mut self.last.0);
        answer.clone_into(&mut self.last.1);
        if answer.starts_with(b" 0") {
            self.accepted(call, answer);
        }
    }

    fn accepted(&mut self, call: &[u8], answer: &[u8]) {
        let columns = |place| call.get(place).unwrap_or_default();
        let id = || String::from_utf8_lossy(columns(ID)).trim().to_string();
        match columns(CODE) {
            b" 1" => self.opening = (call.to_vec(), answer.to_vec()),
            b" 2" => {
                self.trains.push(id());
                self.had_a_train = true;
            }
            b" 8" => {
                let id = id();
                self.trains.retain(|train| *train != id);
            }
            _ => {}
        }
    }

    /// No train is on the line any more: its table is then the one that the
    /// opening made (crates/stream/proofs/Emptied).
    pub fn is_as_opened(&self) -> bool {
        self.had_a_train && self.trains.is_empty()
    }

    /// A line that was just opened by the same call.
    pub fn anew(&mut self) -> Told {
        let (call, answer) = mem::take(&mut self.opening);
        let mut told = Told::default();
        told.add(&call, &answer);
        told
    }
}
