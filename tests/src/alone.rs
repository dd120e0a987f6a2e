//! Calls of the engine alone, with slices that are long enough.

use crate::edit_examples::Judgement;
use crate::engine::{self, Found, Lengths, Previewed};
use crate::examples::to_hexadecimal;
use crate::input::Input;
use crate::reference::{FILE_LENGTH, FORMULA_LENGTH, SCHEMA_LENGTH};
use crate::slice_lengths::{least_for_apply, least_for_recover, work_length};

/// Apply: schema and output record.
pub fn applied(input: &Input, node: usize, instantiation: &[u8]) -> (Vec<u8>, Vec<u8>) {
    let slices = least_for_apply(input).map(|length| vec![0x55; length]);
    let [mut work, mut schema, mut out] = slices;
    let mut lengths = Lengths::default();
    let answer = engine::apply(
        &input.bytes,
        node,
        instantiation,
        &mut work,
        &mut schema,
        &mut out,
        &mut lengths,
    );
    assert_eq!(answer, 0, "{}", to_hexadecimal(instantiation));
    schema.truncate(lengths.schema);
    out.truncate(lengths.output);
    (schema, out)
}

/// Recover: the instantiation.
pub fn recovered(input: &Input, node: usize, schema: &[u8]) -> Vec<u8> {
    let slices = least_for_recover(input).map(|length| vec![0x55; length]);
    let ([mut work, mut result], mut value) = (slices, 0);
    let answer = engine::recover(
        &input.bytes,
        node,
        schema,
        &mut work,
        &mut result,
        &mut value,
    );
    assert_eq!(answer, 0, "{}", to_hexadecimal(schema));
    result.truncate(value);
    result
}

/// Parsing a query: the file, or the refusal.
pub fn parsed(relations: u8, text: &[u8]) -> Result<Vec<u8>, u8> {
    let (mut file, mut size) = (vec![0x55; FILE_LENGTH], 0);
    match engine::parse_query(relations, text, &mut file, &mut size) {
        0 => {
            file.truncate(size);
            Ok(file)
        }
        refusal => Err(refusal),
    }
}

/// Edit: the edited file, or the refusal.
pub fn edited(file: &[u8], node: usize, record: &[u8]) -> Result<Vec<u8>, u8> {
    let (mut result, mut size) = (vec![0x55; FILE_LENGTH], 0);
    match engine::edit(file, node, record, &mut result, &mut size) {
        0 => {
            result.truncate(size);
            Ok(result)
        }
        refusal => Err(refusal),
    }
}

/// Preview: what is said of the last node and the formulas, or the refusal.
pub fn previewed(file: &[u8], node: usize, record: &[u8]) -> Result<(Judgement, Vec<u8>), u8> {
    let (mut work, mut previewed) = (vec![0x55; work_length(file)], Previewed::default());
    match engine::preview(file, node, record, &mut work, &mut previewed) {
        0 => Ok((Ok(previewed.memberships), work)),
        255 => Ok((Err(previewed.attribute), work)),
        refusal => Err(refusal),
    }
}

/// Verdict of the last node of an accepted file: what is said of it, and the formulas.
pub fn judged(file: &[u8]) -> (Judgement, Vec<u8>) {
    let (mut work, mut schema) = (vec![0x55; work_length(file)], vec![0x55; SCHEMA_LENGTH]);
    let (last, mut found) = (usize::from(file[1]) - 1, Found::default());
    match engine::verdict(file, last, &mut work, &mut schema, &mut found) {
        0 => (Ok(found.memberships), work),
        255 => (Err(found.value as u8), work),
        refusal => panic!("refused {refusal}"),
    }
}

/// The record of a node of an accepted file.
pub fn record_of(file: &[u8], node: usize) -> &[u8] {
    let mut start = 0;
    let length = engine::record(file, node, &mut start);
    &file[start..start + length]
}

/// The formulas of the file as Formula stores them.
pub fn formulas(file: &[u8]) -> Vec<u8> {
    let mut work = vec![0; FORMULA_LENGTH * usize::from(file[1])];
    assert_eq!(engine::formula(file, &mut work), 0);
    work
}

/// Asserts that the slice has these bytes at its front and then only `55`.
pub fn assert_written(name: &str, slice: &[u8], written: &[u8]) {
    let (front, rest) = slice.split_at(written.len());
    assert!(front == written, "{name}: {}", to_hexadecimal(front));
    assert!(rest.iter().all(|&byte| byte == 0x55), "{name}");
}
