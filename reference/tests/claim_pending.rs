//! The claim checker knows which call backs are pending, by document 02's request
//! (vi). It refuses made-up histories in which one is not answered so, or an end
//! moves otherwise.

mod made;

use made::{brake, Made, CAP, CEILING, HEAD, LINE_END, REACH, SAFETY};
use reference::brake::STEPS_PER_FOOT;
use reference::call::{Answer, Call, Refusal};
use reference::motion::{Motion, Order};
use reference::pending::{Met, Pendings};
use reference::stay::{check_pending, Stay};

const END: u64 = HEAD + 1000;
/// Short of the reach, and past what the train travels in the next cycle.
const PLACE: u64 = HEAD + 10;
/// What the train travels in the next cycle is past it.
const PASSED: u64 = HEAD + 3;

impl Made {
    /// Train 1 may drive with `CAP`, and is called back to there.
    fn pending(place: u64) -> Made {
        let mut made = Made::driving();
        made.call_back(place);
        made
    }

    /// The same, and a report at the worst case leaves it pending.
    fn left(place: u64) -> Made {
        let mut made = Made::pending(place);
        made.report(HEAD + 7, 7, Order::Brake, REACH);
        made
    }

    fn call_back(&mut self, place: u64) {
        self.accepted(Call::CallBack { id: 1, place });
    }

    /// The first extension again, answered with this end.
    fn repeat(&mut self, end: u64) {
        self.extend(1, 1, 1000, end);
    }

    /// A new extension.
    fn ask(&mut self, answer: Answer) {
        self.ask_for(1, answer);
    }

    fn ask_for(&mut self, length: u64, answer: Answer) {
        let (id, number) = (1, 2);
        self.answered(Call::Extend { id, number, length }, answer);
    }

    fn refuse(&mut self, call: Call, why: Refusal) {
        self.answered(call, Answer::refused(why));
    }

    /// This end and no other.
    fn assert_end(mut self, end: u64) {
        for wrong in [end - 1, end + 1] {
            let mut made = Made {
                input: self.input.clone(),
                output: self.output.clone(),
            };
            made.repeat(wrong);
            made.assert_broken("by its calls");
        }
        self.repeat(end);
        self.assert_kept();
    }

    fn pendings(&self) -> Pendings {
        self.check().expect("the claim holds").pendings
    }

    /// Each of these came up once, and nothing else did.
    fn assert_met(&self, met: &[Met]) {
        let pendings = self.pendings();
        for other in Met::ALL {
            let count = met.iter().filter(|&&one| one == other).count();
            assert_eq!(pendings.of(other), count as u64, "{other:?}");
        }
    }
}

const PENDING: Answer = Answer::refused(Refusal::Pending);

#[test]
fn end_stays_while_a_call_back_is_pending() {
    for place in [HEAD, PASSED, PLACE, REACH - 1] {
        Made::pending(place).assert_end(END);
    }
    Made::left(PLACE).assert_end(END);
    // Not below the reach, it is not pending.
    Made::pending(REACH).assert_end(REACH);
    Made::pending(END).assert_end(END);
}

/// Neither before nor after the first report.
#[test]
fn end_of_a_standing_braked_train_moves_at_once() {
    let mut made = Made::one_train(1000);
    made.call_back(HEAD);
    made.assert_end(HEAD);
    let mut made = Made::one_train(1000);
    made.report(HEAD, 0, Order::Brake, HEAD);
    made.call_back(HEAD + 1);
    made.assert_end(HEAD + 1);
}

#[test]
fn end_moves_to_the_place_where_the_reach_is_at_or_before_it() {
    let rolling = Order::Drive(0);
    for (place, head, speed, order, reach) in [
        (PLACE, HEAD + 7, 0, Order::Brake, HEAD + 7),
        (PLACE, HEAD + 7, 0, rolling, HEAD + 7),
        (HEAD + 7, HEAD + 7, 0, rolling, HEAD + 7),
        (PLACE, HEAD + 1, 4, Order::Brake, PLACE),
        (PLACE, HEAD + 1, 2, rolling, PLACE),
    ] {
        let mut made = Made::pending(place);
        made.report(head, speed, order, reach);
        made.assert_end(place);
    }
}

#[test]
fn end_becomes_the_head_where_the_train_stands_past_the_place() {
    let mut made = Made::pending(PASSED);
    made.report(HEAD + 7, 0, Order::Brake, HEAD + 7);
    made.assert_end(HEAD + 7);
    let mut made = Made::left(PASSED);
    made.report(HEAD + 21, 7, Order::Brake, REACH);
    made.report(REACH, 0, Order::Brake, REACH);
    made.assert_end(REACH);
}

#[test]
fn newer_call_back_replaces_the_pending_one() {
    for newer in [HEAD, HEAD + 7, HEAD + 15] {
        let mut made = Made::pending(PLACE);
        made.call_back(newer);
        let end = newer.max(HEAD + 7);
        made.report(HEAD + 7, 0, Order::Brake, HEAD + 7);
        made.assert_end(end);
    }
    let mut made = Made::pending(PLACE);
    made.call_back(REACH);
    made.report(HEAD + 7, 0, Order::Brake, HEAD + 7);
    made.assert_end(REACH);
}

#[test]
fn refused_call_back_leaves_the_pending_one() {
    let mut made = Made::pending(PLACE);
    for place in [HEAD - 1, END + 1] {
        made.refuse(Call::CallBack { id: 1, place }, Refusal::Place);
    }
    made.report(HEAD + 7, 0, Order::Brake, HEAD + 7);
    made.assert_end(PLACE);
}

#[test]
fn call_back_behind_the_head_or_beyond_the_end_is_refused() {
    let mut made = Made::driving();
    made.call_back(HEAD - 1);
    made.assert_broken("behind its head");
    let mut made = Made::driving();
    made.call_back(END + 1);
    made.assert_broken("moves forward");
}

#[test]
fn refusal_14_from_the_head_to_the_end_is_refused() {
    for place in [HEAD, PLACE, REACH, END] {
        let mut made = Made::driving();
        made.refuse(Call::CallBack { id: 1, place }, Refusal::Place);
        made.assert_broken("is not called back");
    }
}

#[test]
fn drive_past_the_place_is_refused() {
    let mut made = Made::pending(PLACE);
    made.report(HEAD + 7, 7, Order::Drive(0), HEAD + 36);
    made.assert_broken("though it does not brake");
    let mut made = Made::pending(PLACE);
    made.report(HEAD + 2, 0, Order::Drive(CAP), REACH + 2);
    made.assert_broken("though it stands");
    // Past the place it must brake once more, and its end is its head then.
    let mut made = Made::pending(PASSED);
    made.report(HEAD + 7, 0, Order::Drive(0), HEAD + 7);
    made.assert_broken("may drive past where it is called back to");
}

/// A train that brakes at a speed of 7, with a call back pending for so many
/// reports.
fn waiting(waits: u64) -> Stay {
    Stay {
        id: 1,
        steps: STEPS_PER_FOOT,
        brake: brake(),
        motion: Motion {
            head: HEAD,
            speed: 7,
            level: 0,
        },
        order: Order::Brake,
        end: END,
        want: Some(PLACE),
        waits,
        number: 1,
        held: None,
        braked: Some(1),
        held_count: brake().held_count(CEILING),
    }
}

/// No history comes so far, since its train has to stand long before.
#[test]
fn call_back_that_outlasts_the_counted_reports_is_refused() {
    let count = brake().held_count(CEILING);
    assert_eq!(check_pending(&waiting(count - 1)), Ok(()));
    let broken = check_pending(&waiting(count)).expect_err("it waits too long");
    assert!(broken.contains("all counted reports are over"), "{broken}");
}

#[test]
fn reports_are_counted_from_the_last_call_back_on() {
    let (mut stay, mut reached) = (waiting(5), Pendings::default());
    for place in [PLACE + 1, PLACE + 2] {
        assert_eq!(stay.call_back(place, &mut reached), Ok(()));
        assert_eq!(stay.waits, 0);
        stay.settle(REACH, &mut reached);
        stay.settle(REACH, &mut reached);
        assert_eq!((stay.waits, stay.want), (2, Some(place)));
    }
}

#[test]
fn report_that_moves_an_end_forward_is_refused() {
    let mut made = Made::left(PASSED);
    made.report(END + 1, 0, Order::Brake, END + 1);
    made.assert_broken("moves forward");
}

#[test]
fn new_track_while_one_is_pending_is_refused() {
    for mut made in [Made::pending(PLACE), Made::left(PLACE)] {
        made.ask(PENDING);
        made.assert_kept();
        made.ask(Answer::accepted([END + 1, 0, 0]));
        made.assert_broken("gets new track");
    }
}

#[test]
fn refusal_13_while_one_is_pending_is_refused() {
    let beyond = Answer::refused(Refusal::BeyondLimit);
    let mut made = Made::driving();
    made.ask_for(LINE_END, beyond);
    made.call_back(PLACE);
    made.ask_for(LINE_END, PENDING);
    made.assert_kept();
    made.ask_for(LINE_END, beyond);
    made.assert_broken("is judged with a call back pending");
}

#[test]
fn refusal_17_of_anything_else_is_refused() {
    let mut made = Made::driving();
    made.ask(PENDING);
    made.assert_broken("asks for no new track");
    let mut made = Made::pending(PLACE);
    made.report(HEAD + 7, 0, Order::Drive(0), HEAD + 7);
    made.ask(PENDING);
    made.assert_broken("asks for no new track");
    let mut made = Made::pending(PLACE);
    let (id, number, length) = (1, 1, 1000);
    made.refuse(Call::Extend { id, number, length }, Refusal::Pending);
    made.assert_broken("asks for no new track");
}

/// A number refused with 17 is not used: taken later, it adds its length.
#[test]
fn number_refused_with_17_is_new() {
    let mut made = Made::pending(PLACE);
    made.ask(PENDING);
    made.call_back(REACH);
    made.ask(Answer::accepted([REACH + 1, 0, 0]));
    made.assert_kept();
}

#[test]
fn ends_are_told_by_how_they_came() {
    let ended = |place, [head, speed, reach]: [u64; 3], order| {
        let mut made = Made::pending(place);
        made.report(HEAD + head, speed, order, HEAD + reach);
        made
    };
    let rolling = Order::Drive(0);
    ended(PLACE, [1, 2, 10], rolling).assert_met(&[Met::Driving]);
    ended(PLACE, [1, 4, 10], Order::Brake).assert_met(&[Met::Braking]);
    ended(PLACE, [7, 0, 7], rolling).assert_met(&[Met::Standing]);
    ended(HEAD + 7, [7, 0, 7], Order::Brake).assert_met(&[Met::Standing]);
    ended(PASSED, [7, 0, 7], Order::Brake).assert_met(&[Met::Past]);
    Made::left(PLACE).assert_met(&[Met::Left]);
}

#[test]
fn call_backs_that_replace_one_are_told_by_their_places() {
    for (place, met) in [
        (PLACE + 1, Met::Farther),
        (PLACE - 1, Met::Nearer),
        (PLACE, Met::Again),
        (REACH, Met::AtOnce),
    ] {
        let mut made = Made::pending(PLACE);
        made.call_back(place);
        made.assert_met(&[met]);
    }
    let mut made = Made::left(PLACE);
    made.call_back(PLACE + 1);
    made.assert_met(&[Met::Left, Met::Farther, Met::Marked]);
}

#[test]
fn what_comes_meanwhile_is_told() {
    let mut made = Made::pending(PLACE);
    made.ask(PENDING);
    made.ask_for(LINE_END, PENDING);
    made.repeat(END);
    made.accepted(Call::Hold { id: 1 });
    made.accepted(Call::Lift { id: 1 });
    let place = HEAD - 1;
    made.refuse(Call::CallBack { id: 1, place }, Refusal::Place);
    made.assert_met(&[
        Met::WithTrack,
        Met::WithoutTrack,
        Met::Repeated,
        Met::Held,
        Met::Lifted,
        Met::Refused,
    ]);
}

/// The limit of a train behind another is the safety distance behind its rear.
#[test]
fn track_is_told_by_the_train_ahead() {
    let ahead = 50_000_000;
    let free = ahead - STEPS_PER_FOOT - SAFETY - END;
    for (length, met) in [(free, Met::WithTrack), (free + 1, Met::WithoutTrack)] {
        let mut made = Made::line();
        made.enter(2, ahead);
        made.enter(1, HEAD);
        made.extend(1, 1, 1000, END);
        made.report(HEAD, 0, Order::Drive(CAP), REACH);
        made.call_back(PLACE);
        made.ask_for(length, PENDING);
        made.assert_met(&[met]);
    }
}

#[test]
fn what_came_seldom_is_told_by_name() {
    let mut pendings = Made::left(PLACE).pendings();
    assert_eq!(pendings.rare(1).len(), Met::ALL.len() - 1);
    pendings.add(pendings);
    assert_eq!(pendings.of(Met::Left), 2);
    let rare = pendings.rare(3);
    assert!(
        rare.contains(&"left by a report: 2".to_string()),
        "{rare:?}"
    );
}
