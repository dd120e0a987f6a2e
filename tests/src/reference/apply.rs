//! The operation Apply, written plainly from documents 01 and 02.

use super::{
    encode_record, encode_schema, infer, read_instantiation, Inferred, Type, IMAGE_NOT_FILLED,
    OUTPUT_LENGTH, SCHEMA_LENGTH,
};

/// An answer of Apply.
#[derive(Clone, Copy, Debug, PartialEq, Eq)]
pub enum Apply {
    /// Schema and output record are written; their lengths.
    Applied { schema: usize, output: usize },
    /// The first refusal.
    Refused { number: u8 },
}

impl Inferred {
    /// Apply of this file.
    pub fn apply(
        &self,
        node: usize,
        bytes: &[u8],
        work: &mut [u8],
        schema: &mut [u8],
        out: &mut [u8],
    ) -> Apply {
        let results = [(&*schema, SCHEMA_LENGTH), (&*out, OUTPUT_LENGTH)];
        let read = self
            .check(node, work, &results)
            .and_then(|()| read_instantiation(bytes));
        let instantiation = match read {
            Ok(instantiation) => instantiation,
            Err(number) => return Apply::Refused { number },
        };
        self.fill(work);
        let formula = &self.formulas[node];
        if let Err(number) = instantiation.check(formula) {
            return Apply::Refused { number };
        }
        let image = instantiation.image(self.file.relations);
        if image.iter().any(Type::is_empty) {
            let number = IMAGE_NOT_FILLED;
            return Apply::Refused { number };
        }
        let image = encode_schema(&image);
        let output = encode_record(&instantiation.output(formula));
        schema[..image.len()].copy_from_slice(&image);
        out[..output.len()].copy_from_slice(&output);
        Apply::Applied {
            schema: image.len(),
            output: output.len(),
        }
    }
}

/// Apply: unless one of 1 to 19 applies, fills the work space as Formula does. Writes the
/// image as schema and the output record unless 20, 21 or 26 applies; else both slices stay.
pub fn apply(
    bytes: &[u8],
    node: usize,
    instantiation: &[u8],
    work: &mut [u8],
    schema: &mut [u8],
    out: &mut [u8],
) -> Apply {
    match infer(bytes) {
        Ok(inferred) => inferred.apply(node, instantiation, work, schema, out),
        Err(number) => Apply::Refused { number },
    }
}
