//! A mixture of inputs of all operations, each derived from a seed and its number: random,
//! damaged, truncated, extended and extreme ones among inputs that give a result.

mod edits;
mod files;
mod instantiations;
mod queries;
mod schemas;

use std::rc::Rc;

use self::files::Files;
use self::queries::Queries;
use crate::answer::{Answer, Operation, OPERATIONS};
use crate::input::Input;
use crate::paired_calls::{Difference, PairedCalls};
use crate::pseudorandom::Random;
use crate::reference::{read_file, FILE_LENGTH, OUTPUT_LENGTH, SCHEMA_LENGTH};
use crate::slice_lengths::{least_for_apply, least_for_recover, work_length};

/// The seed of what fills lent slices.
const NOISE_SEED: u64 = 110;

/// Compares inputs of all operations.
pub struct Mixture {
    calls: PairedCalls,
    files: Files,
    queries: Queries,
    /// How many accepted files of m 8 and n 64 had their formulas inferred or were typed.
    pub greatest: u64,
}

/// The operation of the input of this number: all have the same share.
pub fn operation_of(number: u64) -> Operation {
    OPERATIONS[(number % OPERATIONS.len() as u64) as usize]
}

/// Lengths of slices: three times in four enough, else near the least.
pub fn lengths<const COUNT: usize>(random: &mut Random, least: [usize; COUNT]) -> [usize; COUNT] {
    match random.below(4) {
        0 => least.map(|least| random.near(least)),
        _ => least.map(|least| random.enough(least)),
    }
}

/// The number of an answer.
fn number<A: Answer>(compared: Result<A, Difference>) -> Result<u8, Difference> {
    compared.map(|answer| answer.number())
}

/// The node that is asked: most often the likely one, else any, sometimes one that is not
/// below n.
fn asked_node(random: &mut Random, input: &Input, likely: usize) -> usize {
    match random.below(16) {
        0 => {
            let numbers = input.node_numbers();
            numbers[random.below(numbers.len())]
        }
        1..=3 => random.below(input.inferred.as_ref().map_or(1, |all| all.formulas.len())),
        _ => likely,
    }
}

impl Mixture {
    pub fn new() -> Self {
        Mixture {
            calls: PairedCalls::new(NOISE_SEED),
            files: Files::new(),
            queries: Queries::new(),
            greatest: 0,
        }
    }

    /// Compares the input of this number in a run with this seed. Gives the number of the
    /// answer, or what differs.
    pub fn compare(&mut self, seed: u64, number: u64) -> Result<u8, Difference> {
        let mut random = Random::of_input(seed, number);
        *self.calls.random() = Random::new(random.word());
        match operation_of(number) {
            Operation::Accept => self.accept(&mut random),
            Operation::Record => self.record(&mut random),
            Operation::ReadNode => self.read_node(&mut random),
            Operation::Formula => self.formula(&mut random),
            Operation::Verdict => self.verdict(&mut random),
            Operation::Typing => self.typing(&mut random),
            Operation::Apply => self.apply(&mut random),
            Operation::Recover => self.recover(&mut random),
            Operation::ParseQuery => self.parse_query(&mut random),
            Operation::Edit => self.edit(&mut random),
            Operation::Preview => self.preview(&mut random),
        }
    }

    /// Counts a file of m 8 and n 64.
    fn count_greatest(&mut self, file: &[u8], is_accepted: bool) {
        let is_greatest = file.starts_with(&[8, 64]) && is_accepted;
        self.greatest += u64::from(is_greatest);
    }

    fn accept(&mut self, random: &mut Random) -> Result<u8, Difference> {
        let file = self.files.bytes(random);
        number(self.calls.accept(&file))
    }

    fn record(&mut self, random: &mut Random) -> Result<u8, Difference> {
        let file = self.files.bytes(random);
        let expected = read_file(&file);
        let node = files::any_node(random, &file, expected.as_ref().ok());
        self.calls.record(&file, &expected, node)
    }

    fn read_node(&mut self, random: &mut Random) -> Result<u8, Difference> {
        let (relations, number, bytes) = files::node(random);
        self.calls.read_node(relations, number, &bytes)
    }

    fn formula(&mut self, random: &mut Random) -> Result<u8, Difference> {
        let input = self.files.input(random);
        self.count_greatest(&input.bytes, input.inferred.is_ok());
        let [length] = lengths(random, [input.work_length()]);
        self.calls.formula(&input, length)
    }

    fn verdict(&mut self, random: &mut Random) -> Result<u8, Difference> {
        let input = self.files.input(random);
        self.count_greatest(&input.bytes, input.inferred.is_ok());
        let node = files::any_node_of(random, &input);
        let lengths = lengths(random, [input.work_length(), SCHEMA_LENGTH]);
        number(self.calls.verdict(&input, node, lengths))
    }

    /// A file with one of its nodes and a schema that is often near a typed one.
    pub fn with_schema(&mut self, random: &mut Random) -> (Rc<Input>, usize, Vec<u8>) {
        let input = self.files.likely_input(random);
        self.count_greatest(&input.bytes, input.inferred.is_ok());
        let likely = files::likely_node(random, &input);
        let schema = schemas::schema(random, &input, likely);
        let node = asked_node(random, &input, likely);
        (input, node, schema)
    }

    fn typing(&mut self, random: &mut Random) -> Result<u8, Difference> {
        let (input, node, schema) = self.with_schema(random);
        let [length] = lengths(random, [OUTPUT_LENGTH]);
        number(self.calls.typing(&input.bytes, node, &schema, length))
    }

    /// A file with one of its nodes and an instantiation that is often near one of the
    /// node's formula.
    pub fn with_instantiation(&mut self, random: &mut Random) -> (Rc<Input>, usize, Vec<u8>) {
        let input = self.files.likely_input(random);
        self.count_greatest(&input.bytes, input.inferred.is_ok());
        let likely = files::likely_node(random, &input);
        let instantiation = instantiations::instantiation(random, &input, likely);
        let node = asked_node(random, &input, likely);
        (input, node, instantiation)
    }

    fn apply(&mut self, random: &mut Random) -> Result<u8, Difference> {
        let (input, node, bytes) = self.with_instantiation(random);
        let lengths = lengths(random, least_for_apply(&input));
        number(self.calls.apply(&input, node, &bytes, lengths))
    }

    fn recover(&mut self, random: &mut Random) -> Result<u8, Difference> {
        let (input, node, schema) = self.with_schema(random);
        let lengths = lengths(random, least_for_recover(&input));
        number(self.calls.recover(&input, node, &schema, lengths))
    }

    /// A number of relations and a text that is often a query.
    pub fn query(&mut self, random: &mut Random) -> (u8, Vec<u8>) {
        self.queries.query(random)
    }

    fn parse_query(&mut self, random: &mut Random) -> Result<u8, Difference> {
        let (relations, text) = self.query(random);
        let [length] = lengths(random, [FILE_LENGTH]);
        number(self.calls.parse_query(relations, &text, length))
    }

    /// A file with one of its nodes and a record that can often stand for it.
    pub fn with_record(&mut self, random: &mut Random) -> (Vec<u8>, usize, Vec<u8>) {
        let file = self.files.to_edit(random);
        let read = read_file(&file);
        let node = files::any_node(random, &file, read.as_ref().ok());
        let record = edits::record(random, &file, node);
        (file, node, record)
    }

    fn edit(&mut self, random: &mut Random) -> Result<u8, Difference> {
        let (file, node, record) = self.with_record(random);
        let [length] = lengths(random, [FILE_LENGTH]);
        number(self.calls.edit(&file, node, &record, length))
    }

    fn preview(&mut self, random: &mut Random) -> Result<u8, Difference> {
        let (file, node, record) = self.with_record(random);
        self.count_greatest(&file, read_file(&file).is_ok());
        let [length] = lengths(random, [work_length(&file)]);
        number(self.calls.preview(&file, node, &record, length))
    }
}

impl Default for Mixture {
    fn default() -> Self {
        Mixture::new()
    }
}
