//! Parsing a query.

use super::{Difference, Outcome, PairedCalls};
use crate::answer::Answer;
use crate::engine;
use crate::reference::{self, ParseQuery};

impl PairedCalls {
    /// Compares parsing a query: the answer, the size or that it stays, every byte of the
    /// file slice and around it, and that the text stays. Gives the reference's answer.
    pub fn parse_query(
        &mut self,
        relations: u8,
        text: &[u8],
        file_length: usize,
    ) -> Result<ParseQuery, Difference> {
        self.file
            .prepare(&mut self.random, &self.noise, file_length);
        let before = text.to_vec();
        let parsed = reference::parse_query(relations, text, self.file.for_reference());
        let size_before = self.random.word() as usize;
        let size_wanted = match parsed {
            ParseQuery::Parsed { length } => length,
            ParseQuery::Refused { .. } => size_before,
        };
        let mut size = size_before;
        let answer = engine::parse_query(relations, text, self.file.for_engine(), &mut size);
        let outcome = Outcome {
            given: (answer, size),
            wanted: (parsed.number(), size_wanted),
            inputs: &[("text", &before, text)],
            slices: &[("file", &self.file)],
        };
        outcome.check(|| {
            let text = String::from_utf8_lossy(text);
            format!("query {text:?}, {relations} relations, {file_length} bytes (answer, size)")
        })?;
        Ok(parsed)
    }
}
