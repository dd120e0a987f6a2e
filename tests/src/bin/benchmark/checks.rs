//! The hand-written code compared with the reference on random inputs: valid, damaged,
//! truncated and extended files, schemas, instantiations, queries and records, and slices of any
//! length.

use std::fmt::Debug;

use type_formula_tests::answer::{Answer, Counts, Operation, GREATEST_REFUSAL, NO_TYPE, RESULT};
use type_formula_tests::lent::Lent;
use type_formula_tests::mixture::{lengths, Mixture};
use type_formula_tests::pseudorandom::Random;
use type_formula_tests::reference::{self, FILE_LENGTH, OUTPUT_LENGTH, SCHEMA_LENGTH};
use type_formula_tests::slice_lengths::{least_for_apply, least_for_recover, work_length};

use crate::words;

/// The number of random inputs of each operation.
const INPUTS: usize = 4_000;
/// The length of the bytes that fill slices before a call.
const NOISE_LENGTH: usize = 200_000;

/// Inputs and what slices hold before a call.
struct Checks {
    random: Random,
    mixture: Mixture,
    noise: Vec<u8>,
    counts: Counts,
}

impl Checks {
    fn new(seed: u64) -> Self {
        let mut random = Random::new(seed);
        let noise = random.bytes(NOISE_LENGTH);
        Checks {
            random,
            mixture: Mixture::new(),
            noise,
            counts: Counts::default(),
        }
    }

    /// Makes both calls with slices of these lengths and asserts that answers and slices
    /// are the same.
    fn compare<A: Answer + PartialEq + Debug, const COUNT: usize>(
        &mut self,
        operation: Operation,
        lengths: [usize; COUNT],
        by_reference: impl FnOnce([&mut [u8]; COUNT]) -> A,
        by_words: impl FnOnce([&mut [u8]; COUNT]) -> A,
    ) {
        let mut slices: [Lent; COUNT] = std::array::from_fn(|_| Lent::default());
        for (slice, length) in slices.iter_mut().zip(lengths) {
            slice.prepare(&mut self.random, &self.noise, length);
        }
        let wanted = by_reference(slices.each_mut().map(Lent::for_reference));
        let given = by_words(slices.each_mut().map(Lent::for_engine));
        assert_eq!(given, wanted, "{operation:?}");
        let are_same = slices.iter().all(|slice| slice.difference().is_none());
        assert!(are_same, "{operation:?}: a slice differs");
        self.counts.count(operation, wanted.number());
    }

    fn formula_and_verdict(&mut self) {
        let (input, node, _) = self.mixture.with_schema(&mut self.random);
        let file = &input.bytes;
        let [work, schema] = lengths(&mut self.random, [input.work_length(), SCHEMA_LENGTH]);
        self.compare(
            Operation::Formula,
            [work],
            |[work]| reference::formula(file, work),
            |[work]| words::formula(file, work),
        );
        self.compare(
            Operation::Verdict,
            [work, schema],
            |[work, schema]| reference::verdict(file, node, work, schema),
            |[work, schema]| words::verdict(file, node, work, schema),
        );
    }

    fn typing(&mut self) {
        let (input, node, schema) = self.mixture.with_schema(&mut self.random);
        let file = &input.bytes;
        let lengths = lengths(&mut self.random, [OUTPUT_LENGTH]);
        self.compare(
            Operation::Typing,
            lengths,
            |[out]| reference::typing(file, node, &schema, out),
            |[out]| words::typing(file, node, &schema, out),
        );
    }

    fn apply(&mut self) {
        let (input, node, bytes) = self.mixture.with_instantiation(&mut self.random);
        let file = &input.bytes;
        let lengths = lengths(&mut self.random, least_for_apply(&input));
        self.compare(
            Operation::Apply,
            lengths,
            |[work, schema, out]| reference::apply(file, node, &bytes, work, schema, out),
            |[work, schema, out]| words::apply(file, node, &bytes, work, schema, out),
        );
    }

    fn recover(&mut self) {
        let (input, node, schema) = self.mixture.with_schema(&mut self.random);
        let file = &input.bytes;
        let lengths = lengths(&mut self.random, least_for_recover(&input));
        self.compare(
            Operation::Recover,
            lengths,
            |[work, result]| reference::recover(file, node, &schema, work, result),
            |[work, result]| words::recover(file, node, &schema, work, result),
        );
    }

    fn parse_query(&mut self) {
        let (relations, text) = self.mixture.query(&mut self.random);
        let lengths = lengths(&mut self.random, [FILE_LENGTH]);
        self.compare(
            Operation::ParseQuery,
            lengths,
            |[file]| reference::parse_query(relations, &text, file),
            |[file]| words::parse_query(relations, &text, file),
        );
    }

    fn edit_and_preview(&mut self) {
        let (file, node, record) = self.mixture.with_record(&mut self.random);
        let [result, work] = lengths(&mut self.random, [FILE_LENGTH, work_length(&file)]);
        self.compare(
            Operation::Edit,
            [result],
            |[result]| reference::edit(&file, node, &record, result),
            |[result]| words::edit(&file, node, &record, result),
        );
        self.compare(
            Operation::Preview,
            [work],
            |[work]| reference::preview(&file, node, &record, work),
            |[work]| words::preview(&file, node, &record, work),
        );
    }
}

/// Asserts that the hand-written code answers as the reference does and leaves the same
/// bytes in each slice, and that every answer came up.
pub fn check_words() {
    let mut checks = Checks::new(51);
    for _ in 0..INPUTS {
        checks.formula_and_verdict();
        checks.typing();
        checks.apply();
        checks.recover();
        checks.parse_query();
        checks.edit_and_preview();
    }
    for answer in (RESULT..=GREATEST_REFUSAL).chain([NO_TYPE]) {
        assert!(checks.counts.of_all(answer) > 0, "no answer {answer}");
    }
}
