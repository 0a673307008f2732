//! Document 02, (iv): the levels of a brake that builds up from nothing, as one
//! list. Stop travel from level 0 read from it is the definition's.

use reference::brake::{Brake, LAST_ENTRY_FEET, LONGEST_FEET};
use reference::levels::{levels, run};
use reference::line::{GREATEST_CEILING, GREATEST_TRACTION};
use reference::motion::stop_travel;
use reference::random::Random;
use reference::ranges::consists;

/// No trial of a cap begins faster.
const FASTEST: u64 = GREATEST_CEILING + GREATEST_TRACTION;
const SLOW: u64 = 1_250_000;
const LENGTHS: usize = 40;
const SPEEDS: usize = 1000;
/// Speeds tried for all lengths in all classes.
const CASES: usize = LENGTHS * 3 * SPEEDS;
/// Places in the list around whose speeds each consist is tried.
const PLACES: usize = 100;

fn brake_of(feet: u64, class: u64) -> Brake {
    Brake::of_consist(feet, class).expect("the consist is in range")
}

#[test]
fn list_of_every_consist_ends_with_its_first_full_brake() {
    let (mut most, mut lists) = (0, 0);
    for (feet, class) in consists() {
        let brake = brake_of(feet, class);
        let list = levels(brake);
        let (last, before) = list.split_last().expect("a list has entries");
        assert_eq!(*last, brake.full, "{feet} ft, class {class}");
        for (level, k) in before.iter().zip(0..) {
            assert!(*level < brake.full, "{feet} ft, class {class}, entry {k}");
            assert_eq!(*level, k * brake.growth, "{feet} ft, class {class}");
        }
        let next = before.len() as u64 * brake.growth;
        assert!(next >= brake.full, "{feet} ft, class {class}");
        // Only a loaded train that takes the sheet's last entry has the longest.
        let has_most = class == 1 && feet >= LAST_ENTRY_FEET;
        assert_eq!(list.len() >= 1991, has_most, "{feet} ft, class {class}");
        most = list.len().max(most);
        lists += 1;
    }
    assert_eq!((most, lists), (1991, 30_000));
}

/// How far a list is ever read: a long train stands before its brake is full.
#[test]
fn longest_run_has_1349_cycles() {
    let cycles = |(feet, class)| run(GREATEST_CEILING, &levels(brake_of(feet, class))).0;
    let longest = consists().max_by_key(|&consist| cycles(consist));
    assert_eq!(longest, Some((LONGEST_FEET, 3)));
    assert_eq!(longest.map(cycles), Some(1349));
}

/// Where no trial begins faster, a list of 240 entries is enough.
#[test]
fn slow_trains_stand_within_240_cycles() {
    let cycles = |(feet, class)| run(SLOW, &levels(brake_of(feet, class))).0;
    assert_eq!(consists().map(cycles).max(), Some(239));
}

/// Lengths at the ends and beside a multiple of 20 ft, then any.
fn some_lengths(random: &mut Random) -> Vec<u64> {
    let ends = [
        1,
        20,
        21,
        LAST_ENTRY_FEET - 1,
        LAST_ENTRY_FEET,
        LONGEST_FEET,
    ];
    let any = std::iter::repeat_with(|| random.between(1, LONGEST_FEET));
    ends.into_iter().chain(any).take(LENGTHS).collect()
}

/// The speed that the first so many cycles take off. A train that is faster by
/// one needs one cycle more.
fn lost_in(cycles: usize, list: &[u64]) -> u64 {
    let full = list.last().expect("a list has entries");
    list.iter()
        .chain(std::iter::repeat(full))
        .take(cycles)
        .sum()
}

/// Speeds at the ends, where the full brake is first reached, where the run gets
/// a cycle longer, and any.
fn some_speeds(list: &[u64], random: &mut Random) -> Vec<u64> {
    let mut speeds = vec![0, 1, GREATEST_CEILING, FASTEST];
    let longest = run(FASTEST, list).0 as u64;
    let mut places = vec![list.len() - 1];
    places.extend((1..PLACES).map(|_| random.between(2, longest) as usize));
    for place in places {
        let lost = lost_in(place, list);
        assert_eq!(
            (run(lost, list).0, run(lost + 1, list).0),
            (place, place + 1)
        );
        speeds.extend([lost - 1, lost, lost + 1]);
    }
    while speeds.len() < SPEEDS {
        let fastest = random.pick(&[100_000, FASTEST]);
        speeds.push(random.between(0, fastest));
    }
    speeds
}

#[test]
fn stop_travel_read_from_the_list_is_the_definitions() {
    let mut random = Random::new(4);
    let mut cases = 0;
    for feet in some_lengths(&mut random) {
        for class in 1..=3 {
            let brake = brake_of(feet, class);
            let list = levels(brake);
            for speed in some_speeds(&list, &mut random) {
                let (_, travel) = run(speed, &list);
                let by_definition = stop_travel(speed, 0, brake);
                assert_eq!(travel, by_definition, "{feet} ft, class {class}, {speed}");
                cases += 1;
            }
        }
    }
    assert_eq!(cases, CASES);
}
