//! Edit and Preview.

use super::{Difference, Outcome, PairedCalls};
use crate::answer::Answer;
use crate::engine::{self, Previewed};
use crate::reference::{self, Edit, Preview};

impl PairedCalls {
    /// Compares Edit: the answer, the size or that it stays, every byte of the result slice and
    /// around it, and that file and record stay. Gives the reference's answer.
    pub fn edit(
        &mut self,
        file: &[u8],
        node: usize,
        record: &[u8],
        result_length: usize,
    ) -> Result<Edit, Difference> {
        self.file
            .prepare(&mut self.random, &self.noise, result_length);
        let (file_before, record_before) = (file.to_vec(), record.to_vec());
        let edit = reference::edit(file, node, record, self.file.for_reference());
        let size_before = self.random.word() as usize;
        let size_wanted = match edit {
            Edit::Edited { length } => length,
            Edit::Refused { .. } => size_before,
        };
        let mut size = size_before;
        let answer = engine::edit(file, node, record, self.file.for_engine(), &mut size);
        let outcome = Outcome {
            given: (answer, size),
            wanted: (edit.number(), size_wanted),
            inputs: &[
                ("file", &file_before, file),
                ("record", &record_before, record),
            ],
            slices: &[("result slice", &self.file)],
        };
        outcome.check(|| format!("Edit of node {node}, {result_length} bytes (answer, size)"))?;
        Ok(edit)
    }

    /// Compares Preview: the answer, the numbers or that they stay, every byte of the work space
    /// and around it, and that file and record stay. Gives the reference's answer.
    pub fn preview(
        &mut self,
        file: &[u8],
        node: usize,
        record: &[u8],
        work_length: usize,
    ) -> Result<Preview, Difference> {
        self.work
            .prepare(&mut self.random, &self.noise, work_length);
        let (file_before, record_before) = (file.to_vec(), record.to_vec());
        let preview = reference::preview(file, node, record, self.work.for_reference());
        let before = Previewed {
            attribute: self.random.byte(),
            memberships: self.random.byte(),
        };
        let mut previewed = before;
        let answer = engine::preview(file, node, record, self.work.for_engine(), &mut previewed);
        let outcome = Outcome {
            given: (answer, previewed),
            wanted: (preview.number(), wanted(preview, before)),
            inputs: &[
                ("file", &file_before, file),
                ("record", &record_before, record),
            ],
            slices: &[("work space", &self.work)],
        };
        outcome
            .check(|| format!("Preview of node {node}, {work_length} bytes (answer, numbers)"))?;
        Ok(preview)
    }
}

/// The numbers that the engine is to give: one of them is written, or both stay.
fn wanted(preview: Preview, before: Previewed) -> Previewed {
    let mut previewed = before;
    match preview {
        Preview::Typable { memberships } => previewed.memberships = memberships,
        Preview::Untypable { attribute } => previewed.attribute = attribute,
        Preview::Refused { .. } => {}
    }
    previewed
}
