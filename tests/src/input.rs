//! An expression file with what the reference makes of it.

use crate::examples::node_numbers;
use crate::reference::{infer, Formula, Inferred};
use crate::slice_lengths::work_length;

/// A file with what the reference makes of it, which is inferred once for many calls.
pub struct Input {
    pub bytes: Vec<u8>,
    pub inferred: Result<Inferred, u8>,
}

impl Input {
    pub fn new(bytes: Vec<u8>) -> Self {
        let inferred = infer(&bytes);
        Input { bytes, inferred }
    }

    /// The formulas of an accepted file.
    pub fn formulas(&self) -> &[Formula] {
        match &self.inferred {
            Ok(inferred) => &inferred.formulas,
            Err(refusal) => panic!("refused {refusal}"),
        }
    }

    /// The length of the work space.
    pub fn work_length(&self) -> usize {
        work_length(&self.bytes)
    }

    /// Node numbers to ask.
    pub fn node_numbers(&self) -> Vec<usize> {
        let accepted = self.inferred.as_ref().ok();
        node_numbers(&self.bytes, accepted.map(|inferred| &inferred.file))
    }
}
