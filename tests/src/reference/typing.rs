//! The operation Typing, written plainly from document 01.

use super::{
    encode_record, read_file, read_schema, type_of, NODE_NOT_BELOW_COUNT, RESULT_SLICE_TOO_SHORT,
};

/// The least length of a slice for an output record.
pub const OUTPUT_LENGTH: usize = 513;

/// An answer of Typing.
#[derive(Clone, Copy, Debug, PartialEq, Eq)]
pub enum Typing {
    /// The output record is written; its length.
    Typed { length: usize },
    /// The rules give the node no type under the schema.
    Untyped,
    /// The first refusal.
    Refused { number: u8 },
}

/// The output record, none if untyped, or the first refusal.
fn output(
    bytes: &[u8],
    node: usize,
    schema: &[u8],
    out_length: usize,
) -> Result<Option<Vec<u8>>, u8> {
    let file = read_file(bytes)?;
    if node >= file.nodes.len() {
        return Err(NODE_NOT_BELOW_COUNT);
    }
    if out_length < OUTPUT_LENGTH {
        return Err(RESULT_SLICE_TOO_SHORT);
    }
    let assignment = read_schema(file.relations, schema)?;
    Ok(type_of(&file, node, &assignment).map(|held| encode_record(&held)))
}

/// Typing: writes the output record if the schema types the node; else the result
/// slice stays. Takes no work space, so 12 is not tested.
pub fn typing(bytes: &[u8], node: usize, schema: &[u8], out: &mut [u8]) -> Typing {
    match output(bytes, node, schema, out.len()) {
        Ok(Some(record)) => {
            let length = record.len();
            out[..length].copy_from_slice(&record);
            Typing::Typed { length }
        }
        Ok(None) => Typing::Untyped,
        Err(number) => Typing::Refused { number },
    }
}
