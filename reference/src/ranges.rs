//! Both ends of every range and one beyond, for each field of each call.

use crate::actions::calls_naming;
use crate::brake::{FEET_PER_ENTRY, LAST_ENTRY_FEET, LONGEST_FEET, STEPS_PER_FOOT};
use crate::call::{Call, Entry, Settings};
use crate::callers::usual;
use crate::line::{
    GREATEST_CEILING, GREATEST_SAFETY, GREATEST_TRACTION, LAST_ID, LAST_NUMBER, LONGEST_LINE,
};
use crate::random::Random;
use crate::rights::YARD;
use crate::scene::Scene;
use crate::wire::{put_message, WIDEST};

/// Both ends of the range of each setting.
const ENDS: [[u64; 2]; 4] = [
    [1, LONGEST_LINE],
    [0, GREATEST_SAFETY],
    [1, GREATEST_CEILING],
    [1, GREATEST_TRACTION],
];
/// Values beyond them.
const BEYOND: [&[u64]; 4] = [
    &[0, LONGEST_LINE + 1, WIDEST],
    &[GREATEST_SAFETY + 1, WIDEST],
    &[0, GREATEST_CEILING + 1, WIDEST],
    &[0, GREATEST_TRACTION + 1, WIDEST],
];

/// Settings with one of them out of range.
pub fn wrong_settings(settings: Settings, random: &mut Random) -> Settings {
    let mut values = values_of(settings);
    let field = random.below(4) as usize;
    values[field] = random.pick(BEYOND[field]);
    settings_of(values)
}

fn values_of(settings: Settings) -> [u64; 4] {
    [
        settings.line_end,
        settings.safety,
        settings.ceiling,
        settings.traction,
    ]
}

fn settings_of([line_end, safety, ceiling, traction]: [u64; 4]) -> Settings {
    Settings {
        line_end,
        safety,
        ceiling,
        traction,
    }
}

/// Every field at and beyond the ends of its range, the others in order.
pub fn ranges(scene: &mut Scene, settings: Settings) {
    let opened = opening_ranges(scene, settings);
    scene.open(opened);
    entering_ranges(scene);
    for _ in 0..20 {
        scene.let_in();
        naming_ranges(scene);
        scene.step();
    }
}

/// Refused openings for each field, then the settings to open with: some of
/// them at an end of their range.
fn opening_ranges(scene: &mut Scene, settings: Settings) -> Settings {
    let good = values_of(settings);
    for (field, wrong_values) in BEYOND.iter().enumerate() {
        for &wrong in *wrong_values {
            let mut values = good;
            values[field] = wrong;
            scene.open(settings_of(values));
        }
    }
    let mut values = good;
    for (value, [least, greatest]) in values.iter_mut().zip(ENDS) {
        *value = scene.random.pick(&[*value, *value, least, greatest]);
    }
    settings_of(values)
}

fn entering_ranges(scene: &mut Scene) {
    let limit = scene.limit(0);
    let good = Entry {
        id: 1,
        head: limit,
        feet: 1,
        class: 1,
        start: 0,
    };
    let enter = |scene: &mut Scene, entry: Entry| {
        scene.enter(entry);
        scene.call(Call::TakeOff { id: entry.id });
    };
    for id in [0, 1, LAST_ID, LAST_ID + 1, WIDEST] {
        enter(scene, Entry { id, ..good });
    }
    for feet in [0, 1, LONGEST_FEET, LONGEST_FEET + 1, WIDEST] {
        enter(scene, Entry { feet, ..good });
    }
    for feet in [
        FEET_PER_ENTRY,
        FEET_PER_ENTRY + 1,
        LAST_ENTRY_FEET - 1,
        LAST_ENTRY_FEET,
    ] {
        enter(scene, Entry { feet, ..good });
    }
    for class in [0, 1, 2, 3, 4, WIDEST] {
        enter(scene, Entry { class, ..good });
    }
    for start in [0, 1, LAST_NUMBER, LAST_NUMBER + 1, WIDEST] {
        enter(scene, Entry { start, ..good });
    }
    for feet in [1, 2, scene.random.scaled(LONGEST_FEET), LONGEST_FEET] {
        let steps = feet * STEPS_PER_FOOT;
        for head in [0, steps - 1, steps, limit, limit + 1, WIDEST] {
            enter(scene, Entry { head, feet, ..good });
        }
    }
}

/// Every field of the calls that name a train, at and beyond its ends.
fn naming_ranges(scene: &mut Scene) {
    let Some(train) = scene.train(0) else {
        return;
    };
    let line_end = scene.limit(0);
    let (number, length) = (train.number + 1, 1);
    for number in [0, 1, LAST_NUMBER, LAST_NUMBER + 1, WIDEST] {
        // Length 0 keeps the last number free for later.
        scene.extend(&train, number, 0);
        scene.extend(&train, number, line_end + 1);
    }
    for length in [0, line_end, line_end + 1, WIDEST] {
        scene.extend(&train, number, length);
    }
    scene.extend(&train, number, length);
    let nobody = [0, LAST_ID + 1, YARD, WIDEST];
    let ids = [
        scene.random.pick(&nobody),
        scene.random.pick(&nobody),
        scene.random.between(100, LAST_ID - 1),
        LAST_ID,
    ];
    for id in ids {
        for call in calls_naming(id, 1) {
            scene.call(call);
        }
    }
    let (id, head, reach) = (train.id, train.motion.head, scene.reach(&train));
    for place in [0, head - 1, WIDEST, line_end + 1, head, reach - 1] {
        scene.call(Call::CallBack { id, place });
    }
    for place in [train.end, reach] {
        scene.call(Call::CallBack { id, place });
    }
    for (head, speed) in [(0, 0), (WIDEST, 0), (train.motion.head, WIDEST)] {
        scene.report(&train, head, speed);
    }
}

/// Length and load class of every consist there is.
pub fn consists() -> impl Iterator<Item = (u64, u64)> {
    (1..=LONGEST_FEET).flat_map(|feet| (1..=3).map(move |class| (feet, class)))
}

/// Each of them entering and taken off again, after the opening.
pub fn all_consists() -> Vec<u8> {
    let mut input = Vec::new();
    let settings = Settings {
        line_end: LONGEST_LINE,
        safety: 0,
        ceiling: 1,
        traction: 1,
    };
    put_message(usual(Call::Open(settings)), &mut input);
    for (feet, class) in consists() {
        let entry = Entry {
            id: 1,
            head: LONGEST_LINE,
            feet,
            class,
            start: 0,
        };
        put_message(usual(Call::Enter(entry)), &mut input);
        put_message(usual(Call::TakeOff { id: 1 }), &mut input);
    }
    input
}
