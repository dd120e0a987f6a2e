//! Typing.

use super::{Difference, Outcome, PairedCalls};
use crate::answer::Answer;
use crate::engine;
use crate::reference::{self, Typing};

impl PairedCalls {
    /// Compares Typing: the answer, the value or that it stays, every byte of the result
    /// slice and around it, and that file and schema stay. Gives the reference's answer.
    pub fn typing(
        &mut self,
        file: &[u8],
        node: usize,
        schema: &[u8],
        out_length: usize,
    ) -> Result<Typing, Difference> {
        self.out.prepare(&mut self.random, &self.noise, out_length);
        let (file_before, schema_before) = (file.to_vec(), schema.to_vec());
        let typing = reference::typing(file, node, schema, self.out.for_reference());
        let value_before = self.random.word() as usize;
        let value_wanted = match typing {
            Typing::Typed { length } => length,
            _ => value_before,
        };
        let mut value = value_before;
        let answer = engine::typing(file, node, schema, self.out.for_engine(), &mut value);
        let outcome = Outcome {
            given: (answer, value),
            wanted: (typing.number(), value_wanted),
            inputs: &[
                ("file", &file_before, file),
                ("schema", &schema_before, schema),
            ],
            slices: &[("result slice", &self.out)],
        };
        outcome.check(|| format!("Typing of node {node}, {out_length} bytes (answer, value)"))?;
        Ok(typing)
    }
}
