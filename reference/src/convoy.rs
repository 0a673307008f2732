//! A realistic run: trains behind one another report the worst case of each
//! order, ask for track in pieces and leave at the line end.

use crate::brake::STEPS_PER_FOOT;
use crate::call::{Call, Entry, Settings};
use crate::motion::Order;
use crate::scene::Scene;
use crate::train::Train;

/// Four hundred metres, the piece of track that a train asks for.
const PIECE: u64 = 8_000_000_000;
/// A hundred metres before the line end a train is held, to be taken off.
const TERMINUS: u64 = 2_000_000_000;

/// Where the trains of a convoy start and what they are.
#[derive(Clone, Copy, Debug)]
pub struct Convoy {
    pub trains: usize,
    pub feet: u64,
    pub settings: Settings,
}

impl Convoy {
    /// Opens the line and lets the trains in, spread over its first half.
    pub fn start(&self, scene: &mut Scene) {
        scene.open(self.settings);
        let spacing = self.settings.line_end / 2 / self.trains as u64;
        for place in (1..=self.trains as u64).rev() {
            self.enter(scene, (spacing * place).max(self.length()));
        }
    }

    /// One cycle: each train on the line reports once.
    pub fn cycle(&self, scene: &mut Scene) {
        for index in 0..scene.trains().len() {
            let Some(train) = scene.train(index) else {
                break;
            };
            scene.report_worst(&train);
            self.ask(scene, index);
        }
        self.leave(scene);
        if scene.trains().len() < self.trains {
            self.follow(scene);
        }
    }

    fn length(&self) -> u64 {
        self.feet * STEPS_PER_FOOT
    }

    fn enter(&self, scene: &mut Scene, head: u64) {
        let mut id = scene.random.between(1, 1000);
        while scene.trains().iter().any(|train| train.id == id) {
            id += 1;
        }
        let class = scene.random.between(1, 3);
        scene.enter(Entry {
            id,
            head,
            feet: self.feet,
            class,
            start: 0,
        });
    }

    /// Asks for a piece once the reach comes near the end. What is left of the
    /// line counts as a piece.
    fn ask(&self, scene: &mut Scene, index: usize) {
        let Some(train) = scene.train(index) else {
            return;
        };
        if train.end > scene.reach(&train) + PIECE {
            return;
        }
        let free = scene.limit(index).saturating_sub(train.end);
        if free >= PIECE || (free > 0 && index == 0) {
            scene.extend(&train, train.number + 1, free.min(PIECE));
        }
    }

    /// Holds the first train near the line end and takes it off once it stands.
    fn leave(&self, scene: &mut Scene) {
        let Some(train) = scene.train(0) else {
            return;
        };
        let id = train.id;
        if train.held && stands(&train) {
            scene.call(Call::TakeOff { id });
        } else if !train.held && train.motion.head + TERMINUS >= self.settings.line_end {
            scene.call(Call::Hold { id });
        }
    }

    /// Lets a train in at the start of the line where there is room.
    fn follow(&self, scene: &mut Scene) {
        if self.length() <= scene.limit(scene.trains().len()) {
            self.enter(scene, self.length());
        }
    }
}

fn stands(train: &Train) -> bool {
    train.motion.speed == 0 && train.order == Order::Brake
}
