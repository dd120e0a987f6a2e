//! The C functions called with slices, which ensure what the functions assume: pointer and length
//! of a slice belong together, no pointer is null, and exclusive references overlap nothing.

use super::{
    type_formula_accept, type_formula_apply, type_formula_edit, type_formula_formula,
    type_formula_parse_query, type_formula_preview, type_formula_read_node, type_formula_record,
    type_formula_recover, type_formula_typing, type_formula_verdict,
};

/// The lengths that Apply writes.
#[derive(Default)]
pub struct Lengths {
    pub schema: usize,
    pub output: usize,
}

pub fn accept(file: &[u8], relations: &mut u8, nodes: &mut u8) -> u8 {
    // SAFETY: pointers and lengths are those of references, the written ones exclusive.
    unsafe { type_formula_accept(file.as_ptr(), file.len(), relations, nodes) }
}

pub fn record(file: &[u8], node: usize, start: &mut usize) -> usize {
    // SAFETY: as in `accept`.
    unsafe { type_formula_record(file.as_ptr(), file.len(), node, start) }
}

pub fn read_node(relations: u8, number: u8, bytes: &[u8]) -> u64 {
    // SAFETY: as in `accept`.
    unsafe { type_formula_read_node(relations, number, bytes.as_ptr(), bytes.len()) }
}

pub fn formula(file: &[u8], work: &mut [u8]) -> u8 {
    // SAFETY: as in `accept`.
    unsafe { type_formula_formula(file.as_ptr(), file.len(), work.as_mut_ptr(), work.len()) }
}

pub fn verdict(
    file: &[u8],
    node: usize,
    work: &mut [u8],
    schema: &mut [u8],
    value: &mut usize,
    memberships: &mut u8,
) -> u8 {
    // SAFETY: as in `accept`.
    unsafe {
        type_formula_verdict(
            file.as_ptr(),
            file.len(),
            node,
            work.as_mut_ptr(),
            work.len(),
            schema.as_mut_ptr(),
            schema.len(),
            value,
            memberships,
        )
    }
}

pub fn typing(file: &[u8], node: usize, schema: &[u8], out: &mut [u8], value: &mut usize) -> u8 {
    // SAFETY: as in `accept`.
    unsafe {
        type_formula_typing(
            file.as_ptr(),
            file.len(),
            node,
            schema.as_ptr(),
            schema.len(),
            out.as_mut_ptr(),
            out.len(),
            value,
        )
    }
}

pub fn apply(
    file: &[u8],
    node: usize,
    instantiation: &[u8],
    work: &mut [u8],
    schema: &mut [u8],
    out: &mut [u8],
    lengths: &mut Lengths,
) -> u8 {
    // SAFETY: as in `accept`.
    unsafe {
        type_formula_apply(
            file.as_ptr(),
            file.len(),
            node,
            instantiation.as_ptr(),
            instantiation.len(),
            work.as_mut_ptr(),
            work.len(),
            schema.as_mut_ptr(),
            schema.len(),
            out.as_mut_ptr(),
            out.len(),
            &mut lengths.schema,
            &mut lengths.output,
        )
    }
}

pub fn recover(
    file: &[u8],
    node: usize,
    schema: &[u8],
    work: &mut [u8],
    instantiation: &mut [u8],
    value: &mut usize,
) -> u8 {
    // SAFETY: as in `accept`.
    unsafe {
        type_formula_recover(
            file.as_ptr(),
            file.len(),
            node,
            schema.as_ptr(),
            schema.len(),
            work.as_mut_ptr(),
            work.len(),
            instantiation.as_mut_ptr(),
            instantiation.len(),
            value,
        )
    }
}

pub fn parse_query(relations: u8, text: &[u8], file: &mut [u8], size: &mut usize) -> u8 {
    // SAFETY: as in `accept`.
    unsafe {
        type_formula_parse_query(
            relations,
            text.as_ptr(),
            text.len(),
            file.as_mut_ptr(),
            file.len(),
            size,
        )
    }
}

pub fn edit(file: &[u8], node: usize, record: &[u8], result: &mut [u8], size: &mut usize) -> u8 {
    // SAFETY: as in `accept`.
    unsafe {
        type_formula_edit(
            file.as_ptr(),
            file.len(),
            node,
            record.as_ptr(),
            record.len(),
            result.as_mut_ptr(),
            result.len(),
            size,
        )
    }
}

pub fn preview(
    file: &[u8],
    node: usize,
    record: &[u8],
    work: &mut [u8],
    attribute: &mut u8,
    memberships: &mut u8,
) -> u8 {
    // SAFETY: as in `accept`.
    unsafe {
        type_formula_preview(
            file.as_ptr(),
            file.len(),
            node,
            record.as_ptr(),
            record.len(),
            work.as_mut_ptr(),
            work.len(),
            attribute,
            memberships,
        )
    }
}
