//! Typing.

use crate::c::{calls, UNTYPED};
use crate::{Refusal, TypeRecord};

/// What [`typing`] answers.
#[derive(Clone, Copy, Debug, PartialEq, Eq)]
pub enum Typing<'a> {
    /// The schema types the node: the output record, which is the part written of the result
    /// slice.
    Typed(TypeRecord<'a>),
    /// The schema does not type the node.
    Untyped,
}

/// Typing: the type of the node under a schema, as an output record. Refusals: 1 to 11, 13 to 18
/// and 25.
///
/// The result slice stays beyond the record, and whole where there is none.
///
/// ```
/// use type_formula::{typing, Refusal, Typing, OUTPUT_SIZE};
///
/// let mut out = [0; OUTPUT_SIZE];
///
/// // E9: r0 ∪ π{1}(r1).
/// let file = [2, 4, 0x01, 0, 0x01, 1, 0x1a, 1, 6, 2, 0, 0x0e, 0, 2, 1];
///
/// // r0(a1), r1(a1, 20)
/// let schema = [2, 0, 3, 0, 1, 20, 0];
/// match typing(&file, 3, &schema, &mut out)? {
///     Typing::Typed(output) => assert_eq!(output.to_string(), "(a1)"),
///     Typing::Untyped => panic!("E9 is typed"),
/// }
///
/// // r0(a1, 20), r1(a1, 20)
/// let schema = [3, 0, 1, 20, 0, 3, 0, 1, 20, 0];
/// assert_eq!(typing(&file, 3, &schema, &mut out), Ok(Typing::Untyped));
///
/// // The record of r1 is missing, or it is empty.
/// assert_eq!(typing(&file, 3, &[2, 0], &mut out), Err(Refusal::InputTruncated));
/// assert_eq!(typing(&file, 3, &[2, 0, 0, 0], &mut out), Err(Refusal::EmptyRecord));
/// # Ok::<(), Refusal>(())
/// ```
pub fn typing<'a>(
    file: &[u8],
    node: usize,
    schema: &[u8],
    out: &'a mut [u8],
) -> Result<Typing<'a>, Refusal> {
    let mut value = 0;
    match calls::typing(file, node, schema, out, &mut value) {
        0 => Ok(Typing::Typed(TypeRecord::of_read(&out[..value]))),
        UNTYPED => Ok(Typing::Untyped),
        number => Err(Refusal::answered(number)),
    }
}
