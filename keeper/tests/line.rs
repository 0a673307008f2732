//! The keeper comes through every scene.

mod scenes;

use scenes::SCENES;
use std::path::Path;

/// A test for each, so that they run side by side.
macro_rules! scenes {
    ($($name:ident)*) => {
        $(#[test]
        fn $name() {
            let (_, scene) = SCENES.iter().find(|(name, _)| *name == stringify!($name)).expect("a scene");
            scene(Path::new(env!("CARGO_BIN_EXE_keep")));
        })*

        #[test]
        fn each_scene_has_a_test() {
            assert_eq!(SCENES.len(), [$(stringify!($name)),*].len());
        }
    };
}

scenes! {
    kills kills_while_logs_begin_anew full_disk_for_calls full_disk_for_answers small_file_system
    closed_output second_start torn_call torn_answer answers_ahead answers_of_another_program
    answers_lost ends_that_do_not_block input_that_cannot_be_read input_ends_in_a_line
    lines_in_pieces long_line call_is_kept_before_it_is_made program_that_fails long_replay_is_shown logs_begin_anew
    new_pair_half_begun looks
}
