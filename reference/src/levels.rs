//! The levels of a brake that builds up from nothing, as one list: document 02's
//! request (iv). The rules here do without it. The tests see that stop travel
//! read from it is that of the rules, and some wrong versions read a wrong list.

use crate::brake::Brake;
use crate::motion::braked_cycle;

/// Entry k, counted from 0, is the lesser of k×j and B, up to the first B.
pub fn levels(brake: Brake) -> Vec<u64> {
    let entry = |k: u64| (k * brake.growth).min(brake.full);
    let is_below = |level: &u64| *level < brake.full;
    let mut list: Vec<u64> = (0..).map(entry).take_while(is_below).collect();
    list.push(brake.full);
    list
}

/// Braked cycles from level 0 until speed 0, and their travel. The last entry of
/// the list repeats.
pub fn run(mut speed: u64, levels: &[u64]) -> (usize, u64) {
    let (mut cycles, mut sum) = (0, 0);
    while speed > 0 {
        let level = levels[cycles.min(levels.len() - 1)];
        let (travel, after) = braked_cycle(speed, level);
        sum += travel;
        speed = after;
        cycles += 1;
    }
    (cycles, sum)
}
