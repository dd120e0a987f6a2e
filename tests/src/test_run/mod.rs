//! The run of a test: operations called in pairs, by the engine and by the reference; each asserts
//! that nothing differs, and its answer is counted.

mod edits;
mod files;
mod formulas;
mod instantiations;
mod queries;
mod typing;

pub use formulas::FAR_TOO_LONG;

use crate::answer::{Answer, Counts, Operation, NO_TYPE, RESULT};
use crate::input::Input;
use crate::paired_calls::{Difference, PairedCalls};
use crate::pseudorandom::Random;
use crate::reference::{Apply, Edit, File, ParseQuery, Preview, Recover, Typing, Verdict};

/// The calls of a test and the counts of their answers.
pub struct TestRun {
    calls: PairedCalls,
    pub counts: Counts,
}

impl TestRun {
    /// Slices and numbers before a call are random, by this seed.
    pub fn new(seed: u64) -> Self {
        TestRun {
            calls: PairedCalls::new(seed),
            counts: Counts::default(),
        }
    }

    /// The generator of what slices and numbers are before a call.
    pub fn random(&mut self) -> &mut Random {
        self.calls.random()
    }

    /// Counts the answer; panics if something differs.
    fn made<A: Answer>(&mut self, operation: Operation, compared: Result<A, Difference>) -> A {
        let answer = compared.unwrap_or_else(|difference| panic!("{difference}"));
        self.counts.count(operation, answer.number());
        answer
    }

    pub fn accept(&mut self, file: &[u8]) -> Result<File, u8> {
        let compared = self.calls.accept(file);
        self.made(Operation::Accept, compared)
    }

    pub fn record(&mut self, file: &[u8], expected: &Result<File, u8>, node: usize) -> u8 {
        let compared = self.calls.record(file, expected, node);
        self.made(Operation::Record, compared)
    }

    pub fn read_node(&mut self, relations: u8, number: u8, bytes: &[u8]) -> u8 {
        let compared = self.calls.read_node(relations, number, bytes);
        self.made(Operation::ReadNode, compared)
    }

    pub fn formula(&mut self, input: &Input, work_length: usize) -> u8 {
        let compared = self.calls.formula(input, work_length);
        self.made(Operation::Formula, compared)
    }

    pub fn verdict(&mut self, input: &Input, node: usize, lengths: [usize; 2]) -> Verdict {
        let compared = self.calls.verdict(input, node, lengths);
        self.made(Operation::Verdict, compared)
    }

    pub fn typing(&mut self, file: &[u8], node: usize, schema: &[u8], length: usize) -> Typing {
        let compared = self.calls.typing(file, node, schema, length);
        self.made(Operation::Typing, compared)
    }

    pub fn apply(
        &mut self,
        input: &Input,
        node: usize,
        instantiation: &[u8],
        lengths: [usize; 3],
    ) -> Apply {
        let compared = self.calls.apply(input, node, instantiation, lengths);
        self.made(Operation::Apply, compared)
    }

    pub fn recover(
        &mut self,
        input: &Input,
        node: usize,
        schema: &[u8],
        lengths: [usize; 2],
    ) -> Recover {
        let compared = self.calls.recover(input, node, schema, lengths);
        self.made(Operation::Recover, compared)
    }

    pub fn parse_query(&mut self, relations: u8, text: &[u8], length: usize) -> ParseQuery {
        let compared = self.calls.parse_query(relations, text, length);
        self.made(Operation::ParseQuery, compared)
    }

    pub fn edit(&mut self, file: &[u8], node: usize, record: &[u8], length: usize) -> Edit {
        let compared = self.calls.edit(file, node, record, length);
        self.made(Operation::Edit, compared)
    }

    pub fn preview(&mut self, file: &[u8], node: usize, record: &[u8], length: usize) -> Preview {
        let compared = self.calls.preview(file, node, record, length);
        self.made(Operation::Preview, compared)
    }

    /// Asserts that the operation gave each of these answers at least so often.
    pub fn assert_given(
        &self,
        operation: Operation,
        answers: impl IntoIterator<Item = u8>,
        least: u64,
    ) {
        for answer in answers {
            let count = self.counts.of(operation, answer);
            let name = operation.name();
            assert!(count >= least, "{name} gave {answer} {count} times");
        }
    }

    /// Asserts that the operations together gave each of these answers at least so often.
    pub fn assert_answers(&self, answers: impl IntoIterator<Item = u8>, least: u64) {
        for answer in answers {
            let count = self.counts.of_all(answer);
            assert!(count >= least, "answer {answer} came up {count} times");
        }
    }

    /// Asserts that a result and untyped or untypable are each at least a tenth of the
    /// operation's answers.
    pub fn assert_both(&self, operation: Operation) {
        let least = self.counts.made_by(operation) / 10;
        assert!(least > 0, "few answers of {}", operation.name());
        self.assert_given(operation, [RESULT, NO_TYPE], least);
    }

    /// Prints the number of comparisons and asserts that it is what is intended.
    pub fn finish(&self, test: &str, least: u64) {
        let made = self.counts.made();
        println!("{test}: {made} comparisons\n{}", self.counts.table());
        assert!(made >= least, "{made} comparisons");
    }
}
