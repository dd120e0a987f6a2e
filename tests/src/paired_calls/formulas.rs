//! Formula and Verdict.

use super::{prepare, Difference, Outcome, PairedCalls};
use crate::answer::Answer;
use crate::engine::{self, Found};
use crate::input::Input;
use crate::reference::{read_schema, Verdict};

impl PairedCalls {
    /// Compares Formula: the answer and every byte. Gives the answer.
    pub fn formula(&mut self, input: &Input, work_length: usize) -> Result<u8, Difference> {
        self.work
            .prepare(&mut self.random, &self.noise, work_length);
        let before = input.bytes.clone();
        let wanted = match &input.inferred {
            Ok(inferred) => inferred.formula(self.work.for_reference()),
            Err(refusal) => *refusal,
        };
        let outcome = Outcome {
            given: engine::formula(&input.bytes, self.work.for_engine()),
            wanted,
            inputs: &[("file", &before, &input.bytes)],
            slices: &[("work space", &self.work)],
        };
        outcome.check(|| format!("Formula with {work_length} bytes"))?;
        Ok(wanted)
    }

    /// Compares Verdict: the answer, the numbers or that they stay, and every byte. The lengths
    /// are those of work space and schema. The number of memberships is also compared with that
    /// counted off the bytes that the engine wrote, which are a schema that is not refused. Gives
    /// the reference's answer.
    pub fn verdict(
        &mut self,
        input: &Input,
        node: usize,
        lengths: [usize; 2],
    ) -> Result<Verdict, Difference> {
        let slices = [&mut self.work, &mut self.schema];
        prepare((&mut self.random, &self.noise), slices, lengths);
        let before = input.bytes.clone();
        let (work, schema) = (self.work.for_reference(), self.schema.for_reference());
        let verdict = match &input.inferred {
            Ok(inferred) => inferred.verdict(node, work, schema),
            Err(number) => Verdict::Refused { number: *number },
        };
        let found_before = Found {
            value: self.random.word() as usize,
            memberships: self.random.word() as u8,
        };
        let mut found = found_before;
        let (work, schema) = (self.work.for_engine(), self.schema.for_engine());
        let answer = engine::verdict(&input.bytes, node, work, schema, &mut found);
        let counted = match answer {
            0 => memberships(&input.bytes, &schema[..found.value]),
            _ => Ok(found.memberships),
        };
        let outcome = Outcome {
            given: (answer, found, counted),
            wanted: wanted(verdict, found_before),
            inputs: &[("file", &before, &input.bytes)],
            slices: &[("work space", &self.work), ("schema", &self.schema)],
        };
        outcome.check(|| {
            format!("Verdict of node {node}, {lengths:?} bytes (answer, numbers, count)")
        })?;
        Ok(verdict)
    }
}

/// The memberships of a schema of an accepted file, counted off its bytes.
fn memberships(file: &[u8], schema: &[u8]) -> Result<u8, u8> {
    let sets = read_schema(file[0], schema)?;
    Ok(sets.iter().map(|set| set.len() as u8).sum())
}

/// The answer and the numbers that the engine is to give, and the memberships counted off
/// what it wrote, or those that it was lent.
fn wanted(verdict: Verdict, before: Found) -> (u8, Found, Result<u8, u8>) {
    let mut found = before;
    match verdict {
        Verdict::Typable {
            length,
            memberships,
        } => {
            found.value = length;
            found.memberships = memberships;
        }
        Verdict::Untypable { attribute } => found.value = attribute.into(),
        Verdict::Refused { .. } => {}
    }
    (verdict.number(), found, Ok(found.memberships))
}
