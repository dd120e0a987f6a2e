//! The operation Recover, written plainly from document 01.

use super::{encode_instantiation, infer, read_schema, Inferred, Instantiation};

/// The least length of a slice for an instantiation.
pub const INSTANTIATION_LENGTH: usize = 812;

/// An answer of Recover.
#[derive(Clone, Copy, Debug, PartialEq, Eq)]
pub enum Recover {
    /// The instantiation is written; its length.
    Recovered { length: usize },
    /// The schema is the image of no instantiation of the node's formula.
    Untyped,
    /// The first refusal.
    Refused { number: u8 },
}

impl Inferred {
    /// Recover of this file.
    pub fn recover(
        &self,
        node: usize,
        schema: &[u8],
        work: &mut [u8],
        instantiation: &mut [u8],
    ) -> Recover {
        let read = self
            .check(node, work, &[(instantiation, INSTANTIATION_LENGTH)])
            .and_then(|()| read_schema(self.file.relations, schema));
        let assignment = match read {
            Ok(assignment) => assignment,
            Err(number) => return Recover::Refused { number },
        };
        self.fill(work);
        let recovered = Instantiation::with_image(&assignment);
        if recovered.check(&self.formulas[node]).is_err() {
            return Recover::Untyped;
        }
        let bytes = encode_instantiation(&recovered);
        let length = bytes.len();
        instantiation[..length].copy_from_slice(&bytes);
        Recover::Recovered { length }
    }
}

/// Recover: unless refused, fills the work space as Formula does. Writes the
/// instantiation whose image is the schema, if it is one of the node's formula; else the
/// result slice stays.
pub fn recover(
    bytes: &[u8],
    node: usize,
    schema: &[u8],
    work: &mut [u8],
    instantiation: &mut [u8],
) -> Recover {
    match infer(bytes) {
        Ok(inferred) => inferred.recover(node, schema, work, instantiation),
        Err(number) => Recover::Refused { number },
    }
}
