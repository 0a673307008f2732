//! The claim checker refuses made-up histories that break demand 3, in which a
//! report is answered as document 01 does not say, or a caller as document 02
//! does not. It takes those that keep all three.

mod made;

use made::{brake, opening, Made, CAP, CEILING, HEAD, LINE_END, REACH, SAFETY, TRACTION};
use reference::brake::{Brake, STEPS_PER_FOOT};
use reference::call::{Answer, Call, Code, Entry, Message, Refusal};
use reference::callers::{usual, Wrong};
use reference::claim::{Penalties, Reached};
use reference::motion::{Motion, Order};
use reference::orders::Orders;
use reference::wire::{put_answer, put_message, FIELD_BYTES};

impl Made {
    /// A line with two trains of one foot, number 1 in front.
    fn two_trains(first: u64, second: u64) -> Made {
        let mut made = Made::line();
        made.enter(1, first);
        made.enter(2, second);
        made
    }

    /// A report of a standing train, answered with brake.
    fn stand(&mut self, id: u64, head: u64) {
        let [number, cap] = Order::Brake.numbers();
        self.report_with(id, head, 0, [number, cap, head]);
    }
}

fn held_count() -> u64 {
    brake().held_count(CEILING)
}

#[test]
fn head_past_its_end_is_refused() {
    let mut made = Made::one_train(REACH - HEAD);
    made.report(HEAD, 0, Order::Drive(CAP), REACH);
    made.report(HEAD + 7, 7, Order::Brake, REACH);
    made.report(HEAD + 7 + 14, 7, Order::Brake, REACH);
    made.report(REACH, 0, Order::Brake, REACH);
    made.assert_kept();
    made.stand(1, REACH + 1);
    made.assert_broken("past its end");
}

#[test]
fn end_past_the_line_end_is_refused() {
    let mut made = Made::line();
    made.enter(1, LINE_END);
    made.assert_kept();
    made.extend(1, 1, 1, LINE_END + 1);
    made.assert_broken("past the line end");
}

#[test]
fn end_too_near_the_rear_ahead_is_refused() {
    let limit = 100_000_000 - STEPS_PER_FOOT - SAFETY;
    let mut made = Made::two_trains(100_000_000, limit);
    made.assert_kept();
    made.extend(2, 1, 1, limit + 1);
    made.assert_broken("too near");
}

#[test]
fn end_too_near_after_a_train_left_is_refused() {
    let mut made = Made::two_trains(100_000_000, 50_000_000);
    made.enter(3, 20_000_000);
    made.accepted(Call::TakeOff { id: 2 });
    made.assert_kept();
    // Train 1 is now the train ahead of train 3.
    let free = 100_000_000 - STEPS_PER_FOOT - SAFETY - 20_000_000;
    made.extend(3, 1, free, 20_000_000 + free);
    made.assert_kept();
    made.extend(3, 2, 1, 20_000_001 + free);
    made.assert_broken("too near");
}

#[test]
fn end_other_than_the_calls_say_is_refused() {
    let mut made = Made::line();
    made.enter(1, 10_000_000);
    made.extend(1, 1, 500, 10_000_500);
    made.extend(1, 1, 500, 10_000_500);
    made.accepted(Call::CallBack {
        id: 1,
        place: 10_000_200,
    });
    made.extend(1, 1, 500, 10_000_200);
    made.assert_kept();
    made.extend(1, 1, 500, 10_000_700);
    made.assert_broken("by its calls");
}

#[test]
fn overlap_is_refused() {
    let rear = 100_000_000 - STEPS_PER_FOOT;
    Made::two_trains(100_000_000, rear + 1).assert_broken("overlaps");
    // At the rear itself it is no overlap, but the safety distance is missing.
    Made::two_trains(100_000_000, rear).assert_broken("too near");
}

#[test]
fn overlap_with_the_train_before_the_train_ahead_is_refused() {
    let mut made = Made::two_trains(100_000_000, 50_000_000);
    made.enter(3, 20_000_000);
    made.assert_kept();
    made.stand(3, 100_000_000);
    made.assert_broken("overlaps");
}

#[test]
fn rear_before_the_start_of_the_line_is_refused() {
    let mut made = Made::line();
    made.enter(1, STEPS_PER_FOOT);
    made.assert_kept();
    made.stand(1, STEPS_PER_FOOT - 1);
    made.assert_broken("before the line");
}

/// A train that is held and has stood for so many reports.
fn held_for(reports: u64) -> Made {
    let mut made = Made::one_train(1000);
    for _ in 0..reports {
        // A second hold does not start the count again.
        made.accepted(Call::Hold { id: 1 });
        made.stand(1, HEAD);
    }
    made
}

#[test]
fn held_train_that_moves_after_its_count_is_refused() {
    let mut made = held_for(held_count() - 1);
    made.assert_kept();
    made.report(HEAD, 1, Order::Brake, HEAD);
    made.assert_broken("under hold");
}

#[test]
fn held_train_that_moves_before_its_count_is_refused_by_its_order() {
    let mut made = held_for(held_count() - 2);
    made.report(HEAD, 1, Order::Brake, HEAD);
    made.assert_broken("faster");
}

#[test]
fn held_train_that_moves_again_is_refused() {
    let mut made = held_for(held_count());
    let reached = Reached {
        holds: 1,
        ..Reached::default()
    };
    assert_eq!(made.check(), Ok(reached));
    made.report(HEAD, 1, Order::Brake, HEAD);
    made.assert_broken("under hold");
}

/// A train that brakes since it is held, or goes on braking, has no cap tried.
#[test]
fn orders_are_counted_where_caps_were_tried() {
    let mut made = Made::driving();
    made.report(HEAD + 7, 7, Order::Brake, REACH);
    made.report(HEAD + 21, 7, Order::Brake, REACH);
    made.report(REACH, 0, Order::Drive(0), REACH);
    made.accepted(Call::Hold { id: 1 });
    made.stand(1, REACH);
    let orders = Orders {
        between: 1,
        few: 1,
        brake: 1,
        zero: 1,
        ..Orders::default()
    };
    assert_eq!(made.check().map(|reached| reached.orders), Ok(orders));
}

#[test]
fn lift_ends_the_count() {
    let mut made = held_for(held_count() - 1);
    made.accepted(Call::Lift { id: 1 });
    made.report(HEAD, 0, Order::Drive(CAP), REACH);
    made.report(HEAD + 7, 7, Order::Brake, REACH);
    made.assert_kept();
}

#[test]
fn new_stay_ends_the_count() {
    let mut made = held_for(held_count() - 1);
    made.accepted(Call::TakeOff { id: 1 });
    made.enter(1, HEAD);
    made.extend(1, 1, 1000, HEAD + 1000);
    made.report(HEAD, 0, Order::Drive(CAP), REACH);
    made.report(HEAD + 7, 7, Order::Brake, REACH);
    made.assert_kept();
}

/// A train with much track, and the worst case of what it was answered.
struct Run {
    made: Made,
    motion: Motion,
}

impl Run {
    /// Train 1 has come to a speed of `CAP`, and is told to brake there.
    fn braked() -> Run {
        let mut run = Run {
            made: Made::one_train(100_000_000),
            motion: Motion {
                head: HEAD,
                speed: 0,
                level: 0,
            },
        };
        run.report(Order::Drive(CAP));
        run.report(Order::Brake);
        run
    }

    fn report(&mut self, order: Order) {
        let Motion { head, speed, .. } = self.motion;
        let reach = self.motion.reach(order, brake());
        self.made.report(head, speed, order, reach);
        self.motion = self.motion.worst(order, brake());
    }

    /// So many reports of a train that rolls on.
    fn roll(&mut self, reports: u64) {
        for _ in 0..reports {
            self.report(Order::Drive(0));
        }
    }

    fn penalties(&self) -> Penalties {
        self.made.check().expect("the claim holds").penalties
    }
}

/// The report that brakes it is the first of the count.
#[test]
fn braked_train_that_moves_after_its_count_is_refused() {
    let mut run = Run::braked();
    run.roll(held_count() - 2);
    run.made.assert_kept();
    run.roll(1);
    run.made.assert_broken("the first of which braked it");
}

#[test]
fn neither_hold_lift_nor_track_ends_the_count_of_a_braked_train() {
    let end = HEAD + 100_000_000;
    for call in 0..4 {
        let mut run = Run::braked();
        run.roll(held_count() - 2);
        match call {
            0 => {
                run.made.accepted(Call::Hold { id: 1 });
                run.made.accepted(Call::Lift { id: 1 });
            }
            1 => run.made.extend(1, 2, 1000, end + 1000),
            2 => run.made.extend(1, 1, 100_000_000, end),
            _ => run.made.accepted(Call::CallBack { id: 1, place: end }),
        }
        run.made.assert_kept();
        run.roll(1);
        run.made.assert_broken("the first of which braked it");
    }
}

#[test]
fn stand_ends_the_count_of_a_braked_train() {
    let mut run = Run::braked();
    run.roll(held_count() - 2);
    run.motion.speed = 0;
    run.report(Order::Drive(CAP));
    run.roll(held_count());
    run.made.assert_kept();
    // Braked again, it is counted from there.
    run.report(Order::Brake);
    run.roll(held_count() - 2);
    run.made.assert_kept();
    run.roll(1);
    run.made.assert_broken("the first of which braked it");
}

#[test]
fn brakes_of_moving_trains_are_told_by_what_began_and_ended_them() {
    let mut run = Run::braked();
    run.made.extend(1, 2, 1000, HEAD + 100_001_000);
    run.report(Order::Brake);
    run.motion.speed = 0;
    run.report(Order::Drive(CAP));
    run.made.accepted(Call::Hold { id: 1 });
    run.report(Order::Brake);
    run.made.accepted(Call::Lift { id: 1 });
    let expected = Penalties {
        without_hold: 1,
        under_hold: 1,
        stood: 1,
        extended: 1,
        lifted: 1,
        together: 1,
    };
    assert_eq!(run.penalties(), expected);
}

#[test]
fn figures_that_are_not_the_consists_are_refused() {
    let Brake { full, growth } = brake();
    for wrong in [
        [full + 1, growth, HEAD],
        [full, growth - 1, HEAD],
        [full, growth, HEAD + 1],
    ] {
        let mut made = Made::line();
        made.enter_with(1, HEAD, wrong);
        made.assert_broken("by its entering");
    }
}

#[test]
fn report_within_the_answered_order_is_taken() {
    for (head, speed, reach) in [
        (HEAD, 0, HEAD),
        (HEAD, 7, REACH - 7),
        (HEAD + 7, 0, HEAD + 7),
        (HEAD + 7, 7, REACH),
    ] {
        let mut made = Made::driving();
        made.report(head, speed, Order::Brake, reach);
        made.assert_kept();
    }
}

#[test]
fn report_behind_the_last_head_is_refused() {
    let mut made = Made::driving();
    made.report(HEAD - 1, 0, Order::Brake, HEAD - 1);
    made.assert_broken("behind its last head");
}

#[test]
fn report_beyond_the_answered_order_is_refused() {
    let mut made = Made::driving();
    made.report(HEAD + 8, 7, Order::Brake, REACH + 1);
    made.assert_broken("beyond the worst case");
}

#[test]
fn report_faster_than_the_answered_order_is_refused() {
    let mut made = Made::driving();
    made.report(HEAD + 7, 8, Order::Brake, HEAD + 7 + 17);
    made.assert_broken("faster than the worst case");
}

/// The train drove, but brake was what it was answered.
#[test]
fn report_of_a_driven_cycle_after_brake_is_refused() {
    let mut made = Made::one_train(1000);
    made.stand(1, HEAD);
    made.report(HEAD + 1, 1, Order::Brake, HEAD + 4);
    made.assert_broken("beyond the worst case");
}

/// After the driven cycle the brake has level 0, and j one cycle later.
#[test]
fn level_of_the_brake_is_worked_out_from_the_answered_orders() {
    let braked_once = || {
        let mut made = Made::driving();
        made.report(HEAD + 7, 7, Order::Brake, REACH);
        made.report(HEAD + 7 + 14, 7, Order::Brake, REACH);
        made
    };
    braked_once().assert_kept();
    let mut made = braked_once();
    made.report(REACH, 1, Order::Brake, REACH + 1);
    made.assert_broken("faster than the worst case");
    // Driven again, the train is at level 0 again.
    let mut made = braked_once();
    made.report(REACH, 0, Order::Drive(CAP), REACH + 22);
    made.report(REACH + 7, 7, Order::Brake, REACH + 22);
    made.report(REACH + 7 + 14, 7, Order::Brake, REACH + 22);
    made.assert_kept();
}

#[test]
fn answer_that_is_no_order_is_refused() {
    for values in [[0, 0, HEAD], [2, 1, HEAD], [3, 0, HEAD]] {
        let mut made = Made::one_train(1000);
        made.report_with(1, HEAD, 0, values);
        made.assert_broken("no order");
    }
}

#[test]
fn drive_to_a_held_train_is_refused() {
    let mut made = Made::one_train(1000);
    made.accepted(Call::Hold { id: 1 });
    made.report(HEAD, 0, Order::Drive(0), HEAD);
    made.assert_broken("is held, but may drive");
}

#[test]
fn cap_beyond_engine_or_ceiling_is_refused() {
    let far = 100_000_000;
    let mut made = Made::one_train(far);
    made.report(HEAD, 0, Order::Drive(TRACTION + 1), HEAD + far);
    made.assert_broken("too great a cap");

    let mut made = Made::one_train(far);
    let mut motion = Motion {
        head: HEAD,
        speed: 0,
        level: 0,
    };
    while motion.speed < CEILING {
        let order = Order::Drive(TRACTION);
        let reach = motion.reach(order, brake());
        made.report(motion.head, motion.speed, order, reach);
        motion = motion.worst(order, brake());
    }
    made.assert_kept();
    made.report(motion.head, motion.speed, Order::Drive(1), HEAD + far);
    made.assert_broken("too great a cap");
}

#[test]
fn reach_of_another_order_is_refused() {
    for wrong in [REACH - 1, REACH + 1] {
        let mut made = Made::one_train(1000);
        made.report(HEAD, 0, Order::Drive(CAP), wrong);
        made.assert_broken("by its order");
    }
    let mut made = Made::one_train(1000);
    made.report(HEAD, 0, Order::Brake, HEAD + 1);
    made.assert_broken("by its order");
}

#[test]
fn reach_past_the_end_is_refused() {
    let mut made = Made::one_train(REACH - HEAD);
    made.report(HEAD, 0, Order::Drive(CAP), REACH);
    made.assert_kept();
    let mut made = Made::one_train(REACH - HEAD - 1);
    made.report(HEAD, 0, Order::Drive(CAP), REACH);
    made.assert_broken("the reach of train 1 is past its end");
}

#[test]
fn refused_calls_count_nowhere() {
    let mut made = Made::line();
    made.enter(1, 10_000_000);
    let report = Call::Report {
        id: 1,
        head: LINE_END + 1,
        speed: 1,
    };
    made.answered(report, Answer::refused(Refusal::ReportNotAllowed));
    made.assert_kept();
}

#[test]
fn calls_of_a_train_that_is_not_there_are_refused() {
    let mut made = Made::line();
    made.accepted(Call::Hold { id: 1 });
    made.assert_broken("not on the line");
}

#[test]
fn unreadable_answers_are_refused() {
    let mut made = Made::line();
    made.output.insert(0, b' ');
    made.assert_broken("unreadable");
}

/// Each call, with what a line with train 1 on it might answer.
fn each_call() -> [(Call, Answer); 7] {
    let Brake { full, growth } = brake();
    let id = 1;
    let entry = Entry {
        id: 2,
        head: STEPS_PER_FOOT,
        feet: 1,
        class: 1,
        start: 0,
    };
    let (head, speed) = (2 * HEAD, 0);
    let (number, length) = (1, 1000);
    let place = 2 * HEAD;
    [
        (
            Call::Enter(entry),
            Answer::accepted([full, growth, STEPS_PER_FOOT]),
        ),
        (
            Call::Report { id, head, speed },
            Answer::accepted([2, 0, head]),
        ),
        (
            Call::Extend { id, number, length },
            Answer::accepted([head + length, 0, 0]),
        ),
        (Call::CallBack { id, place }, Answer::DONE),
        (Call::Hold { id }, Answer::DONE),
        (Call::Lift { id }, Answer::DONE),
        (Call::TakeOff { id }, Answer::DONE),
    ]
}

/// A line with train 1, and then this call.
fn called(message: Message, answer: Answer) -> Made {
    let mut made = Made::line();
    made.enter(1, 2 * HEAD);
    made.told(message, answer);
    made
}

const TURNED_AWAY: Answer = Answer::refused(Refusal::NoRight);
const OUT_OF_TURN: Answer = Answer::refused(Refusal::OutOfTurn);
/// The dispatcher, three trains, the yard, and numbers that nobody has.
const CALLERS: [u64; 9] = [
    0,
    1,
    2,
    65_535,
    65_536,
    69_999,
    70_000,
    70_001,
    u32::MAX as u64,
];

#[test]
fn caller_without_the_right_is_turned_away() {
    for (call, accepted) in each_call() {
        let message = usual(call);
        called(message, accepted).assert_kept();
        for caller in CALLERS {
            if caller == message.caller {
                continue;
            }
            let wrong = Message { caller, call };
            called(wrong, TURNED_AWAY).assert_kept();
            called(wrong, accepted).assert_broken("may not");
            called(wrong, OUT_OF_TURN).assert_broken("may not");
            let no_such_train = Answer::refused(Refusal::NoSuchTrain);
            called(wrong, no_such_train).assert_broken("may not");
        }
    }
}

#[test]
fn caller_with_the_right_is_not_turned_away() {
    for (call, _) in each_call() {
        called(usual(call), TURNED_AWAY).assert_broken("but is turned away");
    }
    let mut made = Made::default();
    made.answered(opening(), TURNED_AWAY);
    made.assert_broken("but is turned away");
}

/// Nor has a number that no train has the right to report for itself.
#[test]
fn report_of_no_train_is_turned_away() {
    for id in [0, 65_536, 70_000] {
        let (head, speed) = (HEAD, 0);
        let message = usual(Call::Report { id, head, speed });
        called(message, TURNED_AWAY).assert_kept();
        let no_such_train = Answer::refused(Refusal::NoSuchTrain);
        called(message, no_such_train).assert_broken("may not");
    }
}

#[test]
fn caller_without_the_right_may_be_out_of_turn() {
    for caller in [1, 65_536, 70_000] {
        let call = opening();
        let wrong = Message { caller, call };
        called(wrong, OUT_OF_TURN).assert_kept();
        called(wrong, TURNED_AWAY).assert_broken("may not");
        let first = |answer| {
            let mut made = Made::default();
            made.told(wrong, answer);
            made
        };
        first(TURNED_AWAY).assert_kept();
        first(OUT_OF_TURN).assert_broken("may not");
        first(Answer::refused(Refusal::Setting)).assert_broken("may not");
        first(Answer::DONE).assert_broken("may not");
        let call = Call::Hold { id: 1 };
        let mut made = Made::default();
        made.told(Message { caller, call }, OUT_OF_TURN);
        made.assert_kept();
        made.told(Message { caller, call }, TURNED_AWAY);
        made.assert_broken("may not");
    }
}

#[test]
fn unreadable_line_has_no_caller_to_turn_away() {
    let mut made = Made::line();
    made.input.push(b'\n');
    put_answer(TURNED_AWAY, &mut made.output);
    made.assert_broken("the caller of an unreadable line");
}

#[test]
fn callers_turned_away_are_told_by_what_they_are() {
    let (id, head, speed) = (1, HEAD, 0);
    let hold = Call::Hold { id };
    let report = Call::Report { id, head, speed };
    let of_nobody = Call::Report {
        id: 70_000,
        head,
        speed,
    };
    for (caller, call, kind) in [
        (0, report, Wrong::Dispatcher),
        (70_000, hold, Wrong::Yard),
        (1, hold, Wrong::Named),
        (2, report, Wrong::Other),
        (3, hold, Wrong::Absent),
        (70_000, of_nobody, Wrong::Itself),
        (70_001, hold, Wrong::Nobody),
    ] {
        let mut made = Made::two_trains(2 * HEAD, HEAD);
        made.told(Message { caller, call }, TURNED_AWAY);
        let counts = made.check().expect("the claim holds").turned_away;
        for other in Wrong::ALL {
            for &code in Code::ALL {
                let is_it = (other, code) == (kind, call.code());
                assert_eq!(counts.by_kind(other, code), u64::from(is_it), "{caller}");
            }
        }
        for (number, count) in counts.by_number() {
            assert_eq!(count, u64::from(number == caller), "{caller}");
        }
    }
}

#[test]
fn caller_too_wide_for_its_columns_is_told() {
    for (caller, wide) in [("9223372036854775808", 1), ("              ", 0)] {
        let mut made = Made::line();
        put_message(usual(Call::Hold { id: 1 }), &mut made.input);
        made.input.truncate(made.input.len() - FIELD_BYTES - 1);
        made.input.extend_from_slice(caller.as_bytes());
        made.input.push(b'\n');
        put_answer(Answer::refused(Refusal::Unreadable), &mut made.output);
        let counts = made.check().expect("the claim holds").turned_away;
        assert_eq!(counts.too_wide, wide, "{caller}");
    }
}
