//! The engine against the reference: the first inputs of the mixture that the soak runs.

use type_formula_tests::answer::{
    Counts, Operation, GREATEST_REFUSAL, NO_TYPE, OPERATIONS, RESULT,
};
use type_formula_tests::mixture::{operation_of, Mixture};

/// How many inputs are compared.
const INPUTS: u64 = 66_000;

/// The refusals that an operation can give.
fn refusals(operation: Operation) -> Vec<u8> {
    let all = 1..=GREATEST_REFUSAL;
    let can_give = |&refusal: &u8| match operation {
        Operation::Accept => refusal <= 10,
        Operation::Record => refusal <= 11,
        Operation::ReadNode => (4..=9).contains(&refusal),
        Operation::Formula => refusal <= 10 || refusal == 12,
        Operation::Verdict => refusal <= 13,
        Operation::Typing => matches!(refusal, 1..=11 | 13..=18 | 25),
        Operation::Apply => matches!(refusal, 1..=21 | 26),
        Operation::Recover => matches!(refusal, 1..=18 | 25),
        Operation::ParseQuery => matches!(refusal, 2 | 7 | 9 | 13 | 22..=24),
        Operation::Edit => matches!(refusal, 1..=11 | 27),
        Operation::Preview => refusal <= 12,
    };
    all.filter(can_give).collect()
}

/// Whether the operation can give untyped or untypable.
fn has_no_type(operation: Operation) -> bool {
    use Operation::{Preview, Recover, Typing, Verdict};
    matches!(operation, Verdict | Typing | Recover | Preview)
}

#[test]
fn every_operation_gives_every_answer_that_it_can_give() {
    let (mut mixture, mut counts) = (Mixture::new(), Counts::default());
    for number in 0..INPUTS {
        match mixture.compare(2, number) {
            Ok(answer) => counts.count(operation_of(number), answer),
            Err(difference) => panic!("input {number}: {difference}"),
        }
    }
    println!("{INPUTS} comparisons\n{}", counts.table());
    for operation in OPERATIONS {
        let mut answers = refusals(operation);
        answers.push(RESULT);
        answers.extend(has_no_type(operation).then_some(NO_TYPE));
        let given: u64 = answers.iter().map(|&each| counts.of(operation, each)).sum();
        assert_eq!(given, counts.made_by(operation), "{operation:?}");
        for answer in answers {
            assert!(counts.of(operation, answer) > 0, "{operation:?} {answer}");
        }
    }
}

/// An input does not depend on those before it.
#[test]
fn inputs_in_any_order_have_the_same_answers() {
    let (mut rising, mut falling) = (Mixture::new(), Mixture::new());
    let answers: Vec<_> = (0..800).map(|number| rising.compare(3, number)).collect();
    for number in (0..800).rev() {
        let answer = falling.compare(3, number);
        assert_eq!(answer, answers[number as usize], "input {number}");
    }
}
