//! Every consist there is: 10,000 lengths in three load classes, let in and taken
//! off again in one session. The figures that each is answered with are compared
//! with the brake shop's sheet, worked out by the formula.

use reference::brake::{application_cycles, Brake};
use reference::call::Answer;
use reference::compare;
use reference::line::LONGEST_LINE;
use reference::ranges::{all_consists, consists};
use reference::wire::{lines, read_answer, whole_line};

#[test]
fn every_consist_enters_with_the_figures_of_the_sheet() {
    let output = compare::run(&compare::program(), &all_consists());
    let output = output.unwrap_or_else(|message| panic!("{message}"));
    let answer = |line| whole_line(line).and_then(read_answer).expect("an answer");
    let answers: Vec<Answer> = lines(&output).map(answer).collect();
    assert_eq!(answers.len(), 1 + 2 * 30_000);
    assert_eq!(answers[0], Answer::DONE);
    for (answers, (feet, class)) in answers[1..].chunks(2).zip(consists()) {
        let Brake { full, growth } = Brake::of_consist(feet, class).expect("it is in range");
        let entered = Answer::accepted([full, growth, LONGEST_LINE]);
        assert_eq!(answers, [entered, Answer::DONE], "{feet} ft, class {class}");
    }
}

/// Nor does any train get a quicker brake than the formula gives it.
#[test]
fn no_length_takes_fewer_cycles_than_the_formula() {
    for (feet, class) in consists() {
        let Brake { full, growth } = Brake::of_consist(feet, class).expect("it is in range");
        let by_formula = full / application_cycles(feet);
        assert!(growth <= by_formula, "{feet} ft, class {class}");
    }
}
