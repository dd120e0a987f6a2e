//! The C functions of the engine, wrapped safely: slices in, values out, and the numbers lent
//! as a caller in C lends them.
//!
//! The wrappers are inline, so that the benchmark measures the C functions alone.

use type_formula::c::{
    type_formula_accept, type_formula_apply, type_formula_edit, type_formula_formula,
    type_formula_parse_query, type_formula_preview, type_formula_read_node, type_formula_record,
    type_formula_recover, type_formula_typing, type_formula_verdict,
};
pub use type_formula::c::{UNTYPABLE, UNTYPED};

/// The lengths that Apply writes.
#[derive(Clone, Copy, Debug, Default, PartialEq, Eq)]
pub struct Lengths {
    pub schema: usize,
    pub output: usize,
}

/// 0 if the expression file is accepted, and then writes its relation count m and
/// its node count n; else the number of the first refusal, and both stay.
#[inline]
pub fn accept(file: &[u8], relations: &mut u8, nodes: &mut u8) -> u8 {
    // SAFETY: pointer and length are those of a slice; both results are writable.
    unsafe { type_formula_accept(file.as_ptr(), file.len(), relations, nodes) }
}

/// Record: gives the length of the part of the file that holds the node and writes
/// where it starts; where one of 1 to 11 applies, gives 0 and writes 0.
#[inline]
pub fn record(file: &[u8], node: usize, start: &mut usize) -> usize {
    // SAFETY: pointer and length are those of a slice; the result is writable.
    unsafe { type_formula_record(file.as_ptr(), file.len(), node, start) }
}

/// Reads one node, with the given number, off the front of the bytes, in a file of
/// the given relation count. The eight bytes of the answer, low first: the refusal
/// number and zeros; or 0, the length of the node, its map, its field bytes, zeros.
#[inline]
pub fn read_node(relations: u8, number: u8, bytes: &[u8]) -> [u8; 8] {
    // SAFETY: pointer and length are those of a slice.
    unsafe { type_formula_read_node(relations, number, bytes.as_ptr(), bytes.len()) }.to_le_bytes()
}

/// Formula: fills the first 1,024 n bytes of the work space and gives 0; else gives
/// the number of the first refusal.
#[inline]
pub fn formula(file: &[u8], work: &mut [u8]) -> u8 {
    // SAFETY: pointers and lengths are those of slices; the work space is writable.
    unsafe { type_formula_formula(file.as_ptr(), file.len(), work.as_mut_ptr(), work.len()) }
}

/// The numbers that Verdict writes.
#[derive(Clone, Copy, Debug, Default, PartialEq, Eq)]
pub struct Found {
    /// The length of the witness, or the attribute of an untypable node.
    pub value: usize,
    pub memberships: u8,
}

/// Verdict: 0 if the node is typable, and then writes the witness schema, its length and
/// the number of its memberships; 255 if it is untypable, and then writes the attribute to
/// the value; else the number of the first refusal. A number that is not written stays.
#[inline]
pub fn verdict(
    file: &[u8],
    node: usize,
    work: &mut [u8],
    schema: &mut [u8],
    found: &mut Found,
) -> u8 {
    // SAFETY: pointers and lengths are those of slices; work space, schema and numbers
    // are writable.
    unsafe {
        type_formula_verdict(
            file.as_ptr(),
            file.len(),
            node,
            work.as_mut_ptr(),
            work.len(),
            schema.as_mut_ptr(),
            schema.len(),
            &mut found.value,
            &mut found.memberships,
        )
    }
}

/// Typing: 0 if the schema types the node, and then writes the output record and its
/// length; 255 if it does not; else the number of the first refusal. The result slice
/// and the value stay unless the answer is 0.
#[inline]
pub fn typing(file: &[u8], node: usize, schema: &[u8], out: &mut [u8], value: &mut usize) -> u8 {
    // SAFETY: pointers and lengths are those of slices; result slice and value are
    // writable.
    unsafe {
        type_formula_typing(
            file.as_ptr(),
            file.len(),
            node,
            schema.as_ptr(),
            schema.len(),
            out.as_mut_ptr(),
            out.len(),
            value,
        )
    }
}

/// Apply: 0 if the instantiation is one of the node's formula, and then writes its image
/// as schema, the output record and the lengths of both; else the number of the first
/// refusal. Schema, result slice and lengths stay unless the answer is 0.
#[inline]
pub fn apply(
    file: &[u8],
    node: usize,
    instantiation: &[u8],
    work: &mut [u8],
    schema: &mut [u8],
    out: &mut [u8],
    lengths: &mut Lengths,
) -> u8 {
    // SAFETY: pointers and lengths are those of slices; work space, schema, result slice
    // and lengths are writable.
    unsafe {
        type_formula_apply(
            file.as_ptr(),
            file.len(),
            node,
            instantiation.as_ptr(),
            instantiation.len(),
            work.as_mut_ptr(),
            work.len(),
            schema.as_mut_ptr(),
            schema.len(),
            out.as_mut_ptr(),
            out.len(),
            &mut lengths.schema,
            &mut lengths.output,
        )
    }
}

/// Recover: 0 if the schema types the node, and then writes its instantiation and the
/// length; 255 if it does not; else the number of the first refusal. The result slice
/// and the value stay unless the answer is 0.
#[inline]
pub fn recover(
    file: &[u8],
    node: usize,
    schema: &[u8],
    work: &mut [u8],
    instantiation: &mut [u8],
    value: &mut usize,
) -> u8 {
    // SAFETY: pointers and lengths are those of slices; work space, result slice and
    // value are writable.
    unsafe {
        type_formula_recover(
            file.as_ptr(),
            file.len(),
            node,
            schema.as_ptr(),
            schema.len(),
            work.as_mut_ptr(),
            work.len(),
            instantiation.as_mut_ptr(),
            instantiation.len(),
            value,
        )
    }
}

/// Parse a query: 0 if the text is a query, and then writes its expression file and the
/// length; else the number of the first refusal, and slice and size stay.
#[inline]
pub fn parse_query(relations: u8, text: &[u8], file: &mut [u8], size: &mut usize) -> u8 {
    // SAFETY: pointers and lengths are those of slices; file and size are writable.
    unsafe {
        type_formula_parse_query(
            relations,
            text.as_ptr(),
            text.len(),
            file.as_mut_ptr(),
            file.len(),
            size,
        )
    }
}

/// Edit: 0 if the record can stand for the node, and then writes the edited file and the length;
/// else the number of the first refusal, and slice and size stay.
#[inline]
pub fn edit(file: &[u8], node: usize, record: &[u8], result: &mut [u8], size: &mut usize) -> u8 {
    // SAFETY: pointers and lengths are those of slices; result slice and size are writable.
    unsafe {
        type_formula_edit(
            file.as_ptr(),
            file.len(),
            node,
            record.as_ptr(),
            record.len(),
            result.as_mut_ptr(),
            result.len(),
            size,
        )
    }
}

/// The numbers that Preview writes.
#[derive(Clone, Copy, Debug, Default, PartialEq, Eq)]
pub struct Previewed {
    pub attribute: u8,
    pub memberships: u8,
}

/// Preview: 0 if the last node of the edited file is typable, and then writes the number of
/// memberships; 255 if it is untypable, and then writes the attribute; else the number of the
/// first refusal. A number that is not written stays.
#[inline]
pub fn preview(
    file: &[u8],
    node: usize,
    record: &[u8],
    work: &mut [u8],
    previewed: &mut Previewed,
) -> u8 {
    // SAFETY: pointers and lengths are those of slices; work space and numbers are writable.
    unsafe {
        type_formula_preview(
            file.as_ptr(),
            file.len(),
            node,
            record.as_ptr(),
            record.len(),
            work.as_mut_ptr(),
            work.len(),
            &mut previewed.attribute,
            &mut previewed.memberships,
        )
    }
}
