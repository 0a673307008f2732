//! The greatest cap by halving is the greatest cap by trying each.

use reference::brake::{Brake, LONGEST_FEET};
use reference::motion::{greatest_cap, greatest_cap_by_scan, Bounds, Motion, Order};
use reference::random::Random;

/// A train somewhere, with an end near what it could reach.
fn record(random: &mut Random, fastest: u64, strongest: u64) -> (Motion, Brake, Bounds) {
    let feet = random.scaled(LONGEST_FEET);
    let class = random.between(1, 3);
    let brake = Brake::of_consist(feet, class).expect("the consist is in range");
    let ceiling = random.scaled(fastest);
    let traction = random.scaled(strongest);
    let motion = Motion {
        head: random.scaled(2_000_000_000_000),
        speed: random.between(0, ceiling),
        level: random.between(0, brake.full),
    };
    let some_cap = random.between(0, traction);
    let reach = motion.reach(Order::Drive(some_cap), brake);
    let least = motion.reach(Order::Drive(0), brake);
    let end = match random.below(4) {
        0 => reach,
        1 => reach - 1,
        2 => reach + random.scaled(traction),
        _ => least.saturating_sub(random.between(0, 2)),
    };
    let bounds = Bounds {
        ceiling,
        traction,
        end,
    };
    (motion, brake, bounds)
}

/// Compares both ways and tells how many orders were drive and brake.
fn compare(seed: u64, count: usize, fastest: u64, strongest: u64) -> (usize, usize) {
    let mut random = Random::new(seed);
    let (mut drives, mut brakes) = (0, 0);
    for _ in 0..count {
        let (motion, brake, bounds) = record(&mut random, fastest, strongest);
        let found = greatest_cap(motion, brake, bounds);
        let scanned = greatest_cap_by_scan(motion, brake, bounds);
        assert_eq!(
            found.map(|(cap, _)| cap),
            scanned,
            "{motion:?} {brake:?} {bounds:?}"
        );
        match found {
            Some((cap, reach)) => {
                assert_eq!(reach, motion.reach(Order::Drive(cap), brake));
                drives += 1;
            }
            None => brakes += 1,
        }
    }
    (drives, brakes)
}

#[test]
fn agrees_on_thousands_of_small_records() {
    let (drives, brakes) = compare(1, 10_000, 100_000, 300);
    assert!(
        drives > 1000 && brakes > 1000,
        "{drives} drive, {brakes} brake"
    );
}

#[test]
fn agrees_on_hard_records() {
    let (drives, brakes) = compare(2, 400, 40_000_000, 100_000);
    assert!(drives > 40 && brakes > 40, "{drives} drive, {brakes} brake");
}
