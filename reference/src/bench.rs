//! Inputs to measure the session program with: realistic runs, the worst figures
//! of the ranges, and generated lists. `kinds` has lines that work out little.

use crate::brake::{LONGEST_FEET, STEPS_PER_FOOT};
use crate::call::{Entry, Settings};
use crate::convoy::Convoy;
use crate::generate::{list, Kind};
use crate::line::{GREATEST_CEILING, GREATEST_TRACTION, LONGEST_LINE};
use crate::motion::{Motion, Order};
use crate::scene::{Profile, Scene};
use crate::train::Train;
use crate::wire::{lines, MESSAGE_BYTES};

/// About half of the traction.
const HALF: Order = Order::Drive(GREATEST_TRACTION / 2 + 1);
/// The length and the settings of document 01's example, but the longest line.
pub(crate) const FEET: u64 = 2345;
pub const SETTINGS: Settings = Settings {
    line_end: LONGEST_LINE,
    safety: 8_000_000_000,
    ceiling: 26_822_400,
    traction: 3726,
};
/// Of the generated lists.
const SEEDS: [u64; 2] = [1, 2];

/// A lead-in, which is not measured, and the lines after it.
pub struct Measured {
    pub lead: Vec<u8>,
    pub whole: Vec<u8>,
    pub lines: usize,
}

/// Makes an input of so many measured lines.
pub type Maker = fn(usize) -> Measured;

impl Measured {
    /// All lines of an input.
    fn all(whole: Vec<u8>) -> Measured {
        Measured {
            lead: Vec::new(),
            lines: lines(&whole).count(),
            whole,
        }
    }
}

/// Trains behind one another, as long and fast as in document 01's example.
pub fn realistic(trains: usize, count: usize) -> Measured {
    let convoy = Convoy {
        trains,
        feet: FEET,
        settings: SETTINGS,
    };
    let mut scene = scene();
    convoy.start(&mut scene);
    while scene.lines() < count {
        convoy.cycle(&mut scene);
    }
    let mut whole = scene.into_input();
    whole.truncate(count * (MESSAGE_BYTES + 1));
    Measured::all(whole)
}

/// The longest train of class 3 reports high speed on a free line.
pub fn worst_free(count: usize) -> Measured {
    let mut scene = fast_scene(LONGEST_LINE);
    measure_reports(&mut scene, count)
}

/// The same train, with an end that only half of the traction fits, so that
/// every report has to search for the cap. It comes to speed as on a free line,
/// since less was in its reach on the way.
pub fn worst_bound(count: usize) -> Measured {
    let mut scene = bound_scene();
    measure_reports(&mut scene, count)
}

/// The same train slows down before that end, so that about half of the traction
/// fits at each speed.
pub fn slowing_bound(count: usize) -> Measured {
    let mut scene = bound_scene();
    measure(&mut scene, count, |train| {
        let worst = train.worst();
        let slower = |by: u64| Motion {
            speed: worst.speed.saturating_sub(1000 * by),
            ..worst
        };
        let fits = |next: &Motion| next.reach(HALF, train.brake) <= train.end;
        let mut nexts = (0..).map(slower);
        nexts.find(|next| next.speed == 0 || fits(next))
    })
}

/// The same train stands, and at each report nearer to its end: at first all of
/// the traction but one fits.
pub fn standing_bound(count: usize) -> Measured {
    let mut scene = entered_scene();
    let train = scene.trains()[0];
    let all = Order::Drive(GREATEST_TRACTION);
    let way = train.motion.reach(all, train.brake) - 1 - train.motion.head;
    scene.extend(&train, 1, way);
    measure(&mut scene, count, |train| {
        let nearer = train.motion.head + way / count as u64;
        let head = nearer.min(train.worst().head);
        Some(Motion {
            head,
            speed: 0,
            ..train.motion
        })
    })
}

/// Two generated lists of each kind, with their names.
pub fn generated() -> Vec<(String, Measured)> {
    let named = |kind, seed| {
        let name = format!("{kind:?}, seed {seed}");
        (name, Measured::all(list(seed, kind)))
    };
    let of_kind = |kind| SEEDS.map(|seed| named(kind, seed));
    Kind::ALL.into_iter().flat_map(of_kind).collect()
}

pub(crate) fn scene() -> Scene {
    let profile = Profile {
        longest_feet: LONGEST_FEET,
        most_trains: 1,
        spoilt: 0,
        wrong_callers: false,
    };
    Scene::new(1, profile)
}

/// The longest train of class 3 has just entered.
fn entered_scene() -> Scene {
    let mut scene = scene();
    scene.open(Settings {
        line_end: LONGEST_LINE,
        safety: 0,
        ceiling: GREATEST_CEILING,
        traction: GREATEST_TRACTION,
    });
    let head = LONGEST_FEET * STEPS_PER_FOOT;
    scene.enter(Entry {
        id: 1,
        head,
        feet: LONGEST_FEET,
        class: 3,
        start: 0,
    });
    scene
}

/// It has this end, and has just come to the greatest speed at which the whole
/// traction may still be used.
fn fast_scene(end: u64) -> Scene {
    let mut scene = entered_scene();
    let train = scene.trains()[0];
    scene.extend(&train, 1, end - train.end);
    while scene.trains()[0].motion.speed < GREATEST_CEILING - GREATEST_TRACTION {
        let train = scene.trains()[0];
        scene.report_worst(&train);
    }
    scene
}

/// Only half of the traction fits its end there.
fn bound_scene() -> Scene {
    let train = fast_scene(LONGEST_LINE).trains()[0];
    fast_scene(train.motion.reach(HALF, train.brake))
}

/// So many reports of the same head and speed after what the scene has.
fn measure_reports(scene: &mut Scene, count: usize) -> Measured {
    measure(scene, count, |train| Some(train.motion))
}

/// So many reports of what the train's record gives, after what the scene has.
fn measure(scene: &mut Scene, count: usize, next: impl Fn(&Train) -> Option<Motion>) -> Measured {
    measure_lines(scene, count, |scene, _| {
        let train = scene.trains()[0];
        let next = next(&train).unwrap_or(train.motion);
        scene.report(&train, next.head, next.speed);
    })
}

/// So many lines after what the scene has, each sent by its number.
pub(crate) fn measure_lines(
    scene: &mut Scene,
    count: usize,
    send: impl Fn(&mut Scene, usize),
) -> Measured {
    let lead = scene.input().to_vec();
    (0..count).for_each(|number| send(scene, number));
    let whole = scene.input().to_vec();
    Measured {
        lines: lines(&whole).count() - lines(&lead).count(),
        lead,
        whole,
    }
}
