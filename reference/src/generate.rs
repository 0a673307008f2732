//! Lists of calls from a seed, of several kinds.

use crate::brake::{LAST_ENTRY_FEET, LONGEST_FEET, STEPS_PER_FOOT};
use crate::call::{Call, Entry, Settings};
use crate::callers::usual;
use crate::convoy::Convoy;
use crate::line::{
    GREATEST_CEILING, GREATEST_SAFETY, GREATEST_TRACTION, LAST_NUMBER, LONGEST_LINE, MOST_TRAINS,
};
use crate::random::Random;
use crate::ranges::{ranges, wrong_settings};
use crate::scene::{Profile, Scene};
use crate::spoil::long_run;
use crate::wire::put_message;

#[derive(Clone, Copy, Debug, PartialEq, Eq)]
pub enum Kind {
    /// Several trains run behind one another, now and then disturbed.
    Running,
    /// 32 short trains, the 33rd, and known ids on the full line.
    Full,
    /// Both ends of every range and one beyond, in each field of each call.
    Ranges,
    /// Short lines and small authorities, so that caps are small.
    Tight,
    /// Settings of a few steps each.
    Tiny,
    /// The worst figures: the longest train of class 3, and others, at speed.
    Worst,
    /// Holds that last until after the counted reports.
    Held,
    /// Trains that brake while they move, several at a time.
    Braked,
    /// Spoilt lines among good ones, and a long run of empty ones.
    Garbage,
    /// Calls before the opening, refused and second openings.
    Openings,
    /// Any settings, any calls.
    Mixture,
    /// Ends that a cap just fits, at a stand and at all speeds.
    Searched,
    /// Trains that are called back to short of their reach.
    CalledBack,
}

impl Kind {
    pub const ALL: [Kind; 13] = [
        Kind::Running,
        Kind::Full,
        Kind::Ranges,
        Kind::Tight,
        Kind::Tiny,
        Kind::Worst,
        Kind::Held,
        Kind::Braked,
        Kind::Garbage,
        Kind::Openings,
        Kind::Mixture,
        Kind::Searched,
        Kind::CalledBack,
    ];

    fn profile(self, random: &mut Random) -> Profile {
        let (longest_feet, most_trains, spoilt) = match self {
            Kind::Running => (5000, 6, 0),
            Kind::Full => (20, MOST_TRAINS, 0),
            Kind::Ranges => (2345, 8, 0),
            Kind::Tight => (12, 6, 0),
            Kind::Tiny => (2, 3, 0),
            Kind::Worst => (LONGEST_FEET, 5, 0),
            Kind::Held => (random.pick(&[1, 10, 300]), 3, 0),
            Kind::Braked => (random.pick(&[1, 50, 2000]), 6, 0),
            Kind::Garbage => (1000, 4, 3),
            Kind::Openings => (100, 3, 20),
            Kind::Mixture => (
                random.scaled(LONGEST_FEET),
                random.between(1, 12) as usize,
                random.pick(&[0, 0, 10, 100]),
            ),
            Kind::Searched => (random.pick(&[20, 600, 2000, LONGEST_FEET]), 3, 0),
            Kind::CalledBack => (random.pick(&[1, 50, 2000]), 4, 0),
        };
        Profile {
            longest_feet,
            most_trains,
            spoilt,
            wrong_callers: true,
        }
    }

    /// About how many lines a list of this kind has.
    fn lines(self) -> usize {
        match self {
            Kind::Running => 4000,
            Kind::Worst | Kind::Held | Kind::Searched | Kind::CalledBack => 2500,
            Kind::Tight | Kind::Braked | Kind::Mixture => 1600,
            Kind::Garbage => 1300,
            Kind::Tiny | Kind::Full => 1000,
            Kind::Ranges => 0,
            Kind::Openings => 80,
        }
    }
}

/// The list with this number of the run with this seed.
pub fn numbered(seed: u64, number: u64) -> Vec<u8> {
    let kind = Kind::ALL[(number % Kind::ALL.len() as u64) as usize];
    list(seed_of(seed, number), kind)
}

/// The seed of the list with this number of the run with this seed.
pub fn seed_of(seed: u64, number: u64) -> u64 {
    Random::new(seed ^ number.wrapping_mul(0x2545_f491_4f6c_dd1d)).draw()
}

/// A list of calls.
pub fn list(seed: u64, kind: Kind) -> Vec<u8> {
    let mut random = Random::new(!seed);
    let profile = kind.profile(&mut random);
    let settings = settings(&mut random, kind);
    let mut scene = Scene::new(seed, profile);
    match kind {
        Kind::Running => running(&mut scene, settings),
        Kind::Full => full(&mut scene, settings),
        Kind::Ranges => ranges(&mut scene, settings),
        Kind::Worst => worst(&mut scene, settings),
        Kind::Held => held(&mut scene, settings),
        Kind::Braked => braked(&mut scene, settings),
        Kind::Garbage => garbage(&mut scene, settings),
        Kind::Openings => openings(&mut scene, settings),
        Kind::Searched => searched(&mut scene, settings),
        Kind::CalledBack => called_back(&mut scene, settings),
        _ => open(&mut scene, settings),
    }
    while scene.lines() < kind.lines() {
        scene.step();
    }
    end_list(&mut scene, kind);
    scene.into_input()
}

/// Settings that suit a kind, all in their ranges.
fn settings(random: &mut Random, kind: Kind) -> Settings {
    match kind {
        Kind::Running => Settings {
            line_end: random.pick(&[200_000_000_000, 700_000_000_000, LONGEST_LINE]),
            safety: random.pick(&[0, 8_000_000_000, GREATEST_SAFETY]),
            ceiling: random.pick(&[5_000_000, 13_411_200, 26_822_400]),
            traction: random.pick(&[3726, 20_000, GREATEST_TRACTION]),
        },
        Kind::Tight => Settings {
            line_end: random.between(300_000_000, 4_000_000_000),
            safety: random.scaled(1_000_000),
            ceiling: random.scaled(5_000_000),
            traction: random.scaled(GREATEST_TRACTION),
        },
        Kind::Tiny => Settings {
            line_end: random.between(1, 60_000_000),
            safety: random.between(0, 100),
            ceiling: random.scaled(1000),
            traction: random.scaled(200),
        },
        Kind::Worst => Settings {
            line_end: LONGEST_LINE,
            safety: random.pick(&[0, GREATEST_SAFETY]),
            ceiling: GREATEST_CEILING,
            traction: GREATEST_TRACTION,
        },
        Kind::Held => Settings {
            line_end: LONGEST_LINE,
            safety: random.scaled(GREATEST_SAFETY),
            ceiling: random.pick(&[100_000, 4_000_000, 20_000_000, GREATEST_CEILING]),
            traction: random.between(10_000, GREATEST_TRACTION),
        },
        Kind::Braked | Kind::CalledBack => Settings {
            line_end: LONGEST_LINE,
            safety: random.scaled(GREATEST_SAFETY),
            ceiling: random.pick(&[100_000, 2_000_000, GREATEST_CEILING]),
            traction: random.pick(&[500, 3726, GREATEST_TRACTION]),
        },
        Kind::Searched => Settings {
            line_end: LONGEST_LINE,
            safety: random.scaled(GREATEST_SAFETY),
            ceiling: random.pick(&[50_000, 2_000_000, 20_000_000, GREATEST_CEILING]),
            traction: random.pick(&[3726, 40_000, GREATEST_TRACTION, GREATEST_TRACTION]),
        },
        _ => Settings {
            line_end: random.between(20_000_000_000, LONGEST_LINE),
            safety: random.scaled(100_000_000),
            ceiling: random.scaled(GREATEST_CEILING),
            traction: random.scaled(GREATEST_TRACTION),
        },
    }
}

/// An opening, repeated where it was spoilt.
fn open(scene: &mut Scene, settings: Settings) {
    while scene.line().is_none() {
        scene.open(settings);
    }
}

fn running(scene: &mut Scene, settings: Settings) {
    let convoy = Convoy {
        trains: scene.random.between(1, 5) as usize,
        feet: scene.random.scaled(5000),
        settings,
    };
    convoy.start(scene);
    while scene.lines() < Kind::Running.lines() {
        convoy.cycle(scene);
        if scene.random.once_in(15) {
            scene.step();
        }
    }
}

/// Fills the line from the front, so that the 33rd train is refused.
fn full(scene: &mut Scene, settings: Settings) {
    open(scene, settings);
    let spacing = settings.line_end / 40;
    for place in (0..=MOST_TRAINS as u64).rev() {
        let entry = Entry {
            id: 100 + place,
            head: spacing * (place + 1),
            feet: 1,
            class: place % 3 + 1,
            start: 0,
        };
        scene.enter(entry);
        if scene.trains().len() == MOST_TRAINS {
            // A known id is refused as such, also with a head out of range.
            scene.enter(Entry { id: 110, ..entry });
            scene.enter(Entry {
                id: 110,
                head: 0,
                ..entry
            });
            scene.enter(Entry { head: 0, ..entry });
        }
    }
}

/// The train with the longest way to stop comes to speed on a free line. All
/// lengths that take the sheet's last entry have that way.
fn worst(scene: &mut Scene, settings: Settings) {
    open(scene, settings);
    let feet = scene.random.pick(&[LAST_ENTRY_FEET, LONGEST_FEET]);
    scene.enter(Entry {
        id: 1,
        head: LONGEST_FEET * STEPS_PER_FOOT,
        feet,
        class: 3,
        start: 0,
    });
    while scene.lines() < Kind::Worst.lines() {
        give_all_track(scene);
        scene.run_fast();
        for _ in 0..scene.random.below(12) {
            scene.step();
        }
    }
}

/// Trains are brought to speed and held for the counted reports.
fn held(scene: &mut Scene, settings: Settings) {
    open(scene, settings);
    while scene.trains().is_empty() {
        scene.let_in();
    }
    while scene.lines() < Kind::Held.lines() {
        give_all_track(scene);
        scene.hold_to_a_stand();
        if scene.random.once_in(3) {
            scene.stop_and_take_off();
        }
        scene.name_one(|id| Call::Lift { id });
        scene.step();
    }
}

/// Trains run and brake again and again, all of them at a time.
fn braked(scene: &mut Scene, settings: Settings) {
    open(scene, settings);
    while scene.lines() < Kind::Braked.lines() {
        scene.let_in();
        scene.brake_all();
        scene.step();
    }
}

/// Trains run, and are called back to short of their reach again and again.
fn called_back(scene: &mut Scene, settings: Settings) {
    open(scene, settings);
    while scene.lines() < Kind::CalledBack.lines() {
        scene.let_in();
        for _ in 0..scene.random.between(1, 8) {
            scene.call_back_short();
        }
        scene.step();
    }
}

/// Two trains with much track, one of them as long as the scene lets in. Their
/// ends are set so that a cap just fits, again and again.
fn searched(scene: &mut Scene, settings: Settings) {
    open(scene, settings);
    let lengths = [scene.length_in_feet(), scene.profile().longest_feet];
    for (id, feet) in [2, 1].into_iter().zip(lengths) {
        let entry = Entry {
            id,
            head: settings.line_end / 3 * id,
            feet,
            class: scene.random.between(1, 3),
            start: 0,
        };
        scene.enter(entry);
    }
    while scene.lines() < Kind::Searched.lines() {
        give_all_track(scene);
        scene.search_caps();
        scene.step();
    }
}

/// Extends every train to its limit.
fn give_all_track(scene: &mut Scene) {
    for index in 0..scene.trains().len() {
        let train = scene.trains()[index];
        let free = scene.limit(index).saturating_sub(train.end);
        if free > 0 && train.number < LAST_NUMBER {
            scene.extend(&train, train.number + 1, free);
        }
    }
}

/// Empty lines follow one another when some trains are on the line.
fn garbage(scene: &mut Scene, settings: Settings) {
    open(scene, settings);
    while scene.lines() < Kind::Garbage.lines() / 2 {
        scene.step();
    }
    let run = long_run(&mut scene.random);
    scene.send(&run);
}

/// Calls before the opening, refused openings, then second ones.
fn openings(scene: &mut Scene, settings: Settings) {
    for _ in 0..scene.random.below(8) {
        scene.let_in();
        scene.name_a_stranger();
    }
    for _ in 0..scene.random.below(4) {
        let wrong = wrong_settings(settings, &mut scene.random);
        scene.open(wrong);
    }
    scene.try_as_each(Call::Open(settings));
    open(scene, settings);
    for _ in 0..scene.random.below(30) {
        scene.step();
    }
    let wrong = wrong_settings(settings, &mut scene.random);
    for settings in [settings, wrong] {
        scene.try_as_each(Call::Open(settings));
        scene.open(settings);
    }
}

/// Some lists end in a line without its line feed.
fn end_list(scene: &mut Scene, kind: Kind) {
    if !matches!(kind, Kind::Garbage | Kind::Openings | Kind::Mixture) {
        return;
    }
    let Some(train) = scene.train(0) else {
        return;
    };
    let mut tail = Vec::new();
    put_message(usual(Call::Hold { id: train.id }), &mut tail);
    tail.pop();
    match scene.random.below(4) {
        0 => scene.send(&tail),
        1 => scene.send(&tail[..7]),
        _ => {}
    }
}
