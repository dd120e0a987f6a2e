//! Operations, their answers as numbers, and counts of them.

use crate::reference::{Apply, Edit, File, ParseQuery, Preview, Recover, Typing, Verdict};

/// An operation of the engine.
#[derive(Clone, Copy, Debug, PartialEq, Eq)]
pub enum Operation {
    Accept,
    Record,
    ReadNode,
    Formula,
    Verdict,
    Typing,
    Apply,
    Recover,
    ParseQuery,
    Edit,
    Preview,
}

/// All operations, each at the place of its number.
pub const OPERATIONS: [Operation; 11] = [
    Operation::Accept,
    Operation::Record,
    Operation::ReadNode,
    Operation::Formula,
    Operation::Verdict,
    Operation::Typing,
    Operation::Apply,
    Operation::Recover,
    Operation::ParseQuery,
    Operation::Edit,
    Operation::Preview,
];

impl Operation {
    pub fn name(self) -> &'static str {
        match self {
            Operation::Accept => "accept",
            Operation::Record => "Record",
            Operation::ReadNode => "read node",
            Operation::Formula => "Formula",
            Operation::Verdict => "Verdict",
            Operation::Typing => "Typing",
            Operation::Apply => "Apply",
            Operation::Recover => "Recover",
            Operation::ParseQuery => "Parse a query",
            Operation::Edit => "Edit",
            Operation::Preview => "Preview",
        }
    }
}

/// The number for a result.
pub const RESULT: u8 = 0;
/// The greatest refusal number.
pub const GREATEST_REFUSAL: u8 = 27;
/// The number for untyped and for untypable.
pub const NO_TYPE: u8 = 255;

/// An answer that is a result, untyped or untypable, or a refusal.
pub trait Answer {
    /// 0, 255, or the refusal.
    fn number(&self) -> u8;
}

impl Answer for u8 {
    fn number(&self) -> u8 {
        *self
    }
}

impl Answer for Result<File, u8> {
    fn number(&self) -> u8 {
        self.as_ref().err().copied().unwrap_or(RESULT)
    }
}

impl Answer for Verdict {
    fn number(&self) -> u8 {
        match *self {
            Verdict::Typable { .. } => RESULT,
            Verdict::Untypable { .. } => NO_TYPE,
            Verdict::Refused { number } => number,
        }
    }
}

impl Answer for Typing {
    fn number(&self) -> u8 {
        match *self {
            Typing::Typed { .. } => RESULT,
            Typing::Untyped => NO_TYPE,
            Typing::Refused { number } => number,
        }
    }
}

impl Answer for Apply {
    fn number(&self) -> u8 {
        match *self {
            Apply::Applied { .. } => RESULT,
            Apply::Refused { number } => number,
        }
    }
}

impl Answer for Recover {
    fn number(&self) -> u8 {
        match *self {
            Recover::Recovered { .. } => RESULT,
            Recover::Untyped => NO_TYPE,
            Recover::Refused { number } => number,
        }
    }
}

impl Answer for ParseQuery {
    fn number(&self) -> u8 {
        match *self {
            ParseQuery::Parsed { .. } => RESULT,
            ParseQuery::Refused { number } => number,
        }
    }
}

impl Answer for Edit {
    fn number(&self) -> u8 {
        match *self {
            Edit::Edited { .. } => RESULT,
            Edit::Refused { number } => number,
        }
    }
}

impl Answer for Preview {
    fn number(&self) -> u8 {
        match *self {
            Preview::Typable { .. } => RESULT,
            Preview::Untypable { .. } => NO_TYPE,
            Preview::Refused { number } => number,
        }
    }
}

/// How many answers there are: a result, each refusal, and untyped or untypable.
const ANSWERS: usize = GREATEST_REFUSAL as usize + 2;

/// How often each operation gave each answer.
#[derive(Clone, Debug, Default)]
pub struct Counts {
    /// By operation: at 0 results, then the refusals by number, and last untyped or untypable.
    answers: [[u64; ANSWERS]; OPERATIONS.len()],
}

/// The place of an answer in the counts.
fn place(answer: u8) -> usize {
    match answer {
        NO_TYPE => ANSWERS - 1,
        other => usize::from(other),
    }
}

impl Counts {
    pub fn count(&mut self, operation: Operation, answer: u8) {
        self.answers[operation as usize][place(answer)] += 1;
    }

    /// How often the operation gave the answer.
    pub fn of(&self, operation: Operation, answer: u8) -> u64 {
        self.answers[operation as usize][place(answer)]
    }

    /// How often any operation gave the answer.
    pub fn of_all(&self, answer: u8) -> u64 {
        let of = |&operation: &Operation| self.of(operation, answer);
        OPERATIONS.iter().map(of).sum()
    }

    /// The answers of the operation.
    pub fn made_by(&self, operation: Operation) -> u64 {
        self.answers[operation as usize].iter().sum()
    }

    /// All answers.
    pub fn made(&self) -> u64 {
        OPERATIONS.iter().map(|&each| self.made_by(each)).sum()
    }

    /// A line for each operation that was called: its answers that came up, each with its
    /// count.
    pub fn table(&self) -> String {
        let answers: Vec<u8> = (RESULT..=GREATEST_REFUSAL).chain([NO_TYPE]).collect();
        let line = |&operation: &Operation| {
            let given = answers.iter().filter(|&&each| self.of(operation, each) > 0);
            let items = given.map(|&each| format!(" {each}: {}", self.of(operation, each)));
            let items: Vec<String> = items.collect();
            (!items.is_empty()).then(|| format!("  {}{}", operation.name(), items.join(",")))
        };
        let lines: Vec<String> = OPERATIONS.iter().filter_map(line).collect();
        lines.join("\n")
    }

    /// Adds the counts of others.
    pub fn add(&mut self, others: &Counts) {
        let all = self.answers.iter_mut().flatten();
        for (count, other) in all.zip(others.answers.iter().flatten()) {
            *count += other;
        }
    }
}
