//! Apply and Recover.

use super::{prepare, Difference, Outcome, PairedCalls};
use crate::answer::Answer;
use crate::engine::{self, Lengths};
use crate::input::Input;
use crate::reference::{Apply, Recover};

impl PairedCalls {
    /// Apply by the reference, with the slices lent to it.
    fn apply_by_reference(&mut self, input: &Input, node: usize, instantiation: &[u8]) -> Apply {
        let (work, schema) = (self.work.for_reference(), self.schema.for_reference());
        match &input.inferred {
            Ok(inferred) => {
                let out = self.out.for_reference();
                inferred.apply(node, instantiation, work, schema, out)
            }
            Err(number) => Apply::Refused { number: *number },
        }
    }

    /// Compares Apply: the answer, the lengths or that they stay, every byte of work
    /// space, schema and result slice and around them, and that file and instantiation
    /// stay. Gives the reference's answer.
    pub fn apply(
        &mut self,
        input: &Input,
        node: usize,
        instantiation: &[u8],
        lengths: [usize; 3],
    ) -> Result<Apply, Difference> {
        let slices = [&mut self.work, &mut self.schema, &mut self.out];
        prepare((&mut self.random, &self.noise), slices, lengths);
        let (file_before, before) = (input.bytes.clone(), instantiation.to_vec());
        let apply = self.apply_by_reference(input, node, instantiation);
        let [schema, output] = [self.random.word(), self.random.word()].map(|word| word as usize);
        let mut written = Lengths { schema, output };
        let lengths_wanted = match apply {
            Apply::Applied { schema, output } => Lengths { schema, output },
            Apply::Refused { .. } => written,
        };
        let (work, schema) = (self.work.for_engine(), self.schema.for_engine());
        let (file, out) = (&input.bytes, self.out.for_engine());
        let answer = engine::apply(file, node, instantiation, work, schema, out, &mut written);
        let outcome = Outcome {
            given: (answer, written),
            wanted: (apply.number(), lengths_wanted),
            inputs: &[
                ("file", &file_before, file),
                ("instantiation", &before, instantiation),
            ],
            slices: &[
                ("work space", &self.work),
                ("schema", &self.schema),
                ("result slice", &self.out),
            ],
        };
        outcome.check(|| format!("Apply to node {node}, {lengths:?} bytes (answer, lengths)"))?;
        Ok(apply)
    }

    /// Compares Recover: the answer, the value or that it stays, every byte of work space
    /// and result slice and around them, and that file and schema stay. Gives the
    /// reference's answer.
    pub fn recover(
        &mut self,
        input: &Input,
        node: usize,
        schema: &[u8],
        lengths: [usize; 2],
    ) -> Result<Recover, Difference> {
        let slices = [&mut self.work, &mut self.instantiation];
        prepare((&mut self.random, &self.noise), slices, lengths);
        let (file_before, before) = (input.bytes.clone(), schema.to_vec());
        let work = self.work.for_reference();
        let result = self.instantiation.for_reference();
        let recover = match &input.inferred {
            Ok(inferred) => inferred.recover(node, schema, work, result),
            Err(number) => Recover::Refused { number: *number },
        };
        let value_before = self.random.word() as usize;
        let value_wanted = match recover {
            Recover::Recovered { length } => length,
            _ => value_before,
        };
        let mut value = value_before;
        let (work, result) = (self.work.for_engine(), self.instantiation.for_engine());
        let answer = engine::recover(&input.bytes, node, schema, work, result, &mut value);
        let outcome = Outcome {
            given: (answer, value),
            wanted: (recover.number(), value_wanted),
            inputs: &[
                ("file", &file_before, &input.bytes),
                ("schema", &before, schema),
            ],
            slices: &[
                ("work space", &self.work),
                ("result slice", &self.instantiation),
            ],
        };
        outcome.check(|| format!("Recover for node {node}, {lengths:?} bytes (answer, value)"))?;
        Ok(recover)
    }
}
