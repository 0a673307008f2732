//! Long runs of empty lines are long enough, and counted as `compare` needs it.

use reference::spoil::{long_runs, LONG_RUN, READ_BYTES};
use reference::wire::ANSWER_BYTES;

/// Reads cut a run once at most.
#[test]
fn answers_to_a_part_of_a_long_run_are_longer_than_a_read() {
    for cut in 0..=LONG_RUN {
        let lines = cut.max(LONG_RUN - cut);
        assert!(lines * (ANSWER_BYTES + 1) > READ_BYTES, "{cut}");
    }
}

#[test]
fn long_run_is_told_from_a_shorter_one() {
    for (lines, count) in [(0, 0), (LONG_RUN - 1, 0), (LONG_RUN, 1)] {
        let run = "\n".repeat(lines);
        let input = format!("x\n{run}y\n{run}");
        assert_eq!(long_runs(input.as_bytes()), 2 * count, "{lines}");
    }
}
