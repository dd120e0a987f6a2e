//! Apply: the image of an instantiation, and the output by the stored formula.

use type_formula_tests::reference::{
    Apply, Formula, COLUMNS, IMAGE_NOT_FILLED, OUTPUT_LENGTH, SCHEMA_LENGTH,
};

use super::buffer::room;
use super::columns::{is_output, stored};
use super::instantiation::{maps_of, read_instantiation, Instantiation};
use super::reader::{accept, refuse_if};
use super::schema::write_record;
use super::sets::{relation_sets, set_of, words_for};
use super::{check_node, check_result, check_subsets, check_work_space, fill};

/// Writes the record of each relation, one after another, and gives the length of all.
#[inline(always)]
fn write_image<const WORDS: usize>(relations: u8, of: &Instantiation, out: &mut [u8]) -> usize {
    let sets = relation_sets::<WORDS>(&maps_of(&of.subsets), of.entries);
    let mut length = 0;
    for set in &sets[..usize::from(relations)] {
        length += write_record(set, of.entries, &mut out[length..]);
    }
    length
}

/// The special attributes that have their output bit in the stored formula.
#[inline(always)]
fn output_map(formula: &Formula, subsets: &[u8; 16]) -> u16 {
    let mut map = 0;
    for (column, &s) in (1..COLUMNS).zip(&subsets[1..]) {
        map |= u16::from(is_output(formula, column, s)) << column;
    }
    map
}

/// Writes schema and output record and gives their lengths. A type takes so many words.
fn write<const WORDS: usize>(
    relations: u8,
    formula: &Formula,
    of: &Instantiation,
    [schema, out]: [&mut [u8]; 2],
) -> (usize, usize) {
    let map = output_map(formula, &of.subsets);
    let is_chosen = |entry| is_output(formula, 0, entry as u8);
    let set = set_of::<WORDS>(map, of.entries, is_chosen);
    let length = write_image::<WORDS>(relations, of, schema);
    (length, write_record(&set, of.entries, out))
}

/// Tests that the subsets and the lists give every relation an attribute.
#[inline(always)]
fn check_filled(relations: u8, of: &Instantiation) -> Result<(), u8> {
    let special = of.subsets.iter().fold(0, |filled, s| filled | s);
    let filled = of
        .entries
        .iter()
        .fold(special, |filled, &entry| filled | entry as u8);
    refuse_if(
        filled != (255_u16 >> (8 - relations)) as u8,
        IMAGE_NOT_FILLED,
    )
}

/// The lengths of schema and output record, or the first refusal.
#[inline(always)]
fn lengths(
    bytes: &[u8],
    node: usize,
    instantiation: &[u8],
    work: &mut [u8],
    results: [&mut [u8]; 2],
) -> Result<(usize, usize), u8> {
    let file = accept(bytes)?;
    check_node(&file, node)?;
    check_work_space(&file, work)?;
    check_result(results[0], SCHEMA_LENGTH)?;
    check_result(results[1], OUTPUT_LENGTH)?;
    let (mut first, mut second) = (room(), room());
    let read = read_instantiation(instantiation, [&mut first, &mut second])?;
    fill(file, work);
    let (relations, formula) = (file.relations, stored(work, node));
    check_subsets(formula, &read.map, &read.subsets)?;
    check_filled(relations, &read)?;
    Ok(match words_for(read.entries.len()) {
        1 => write::<1>(relations, formula, &read, results),
        2 => write::<2>(relations, formula, &read, results),
        3 => write::<3>(relations, formula, &read, results),
        4 => write::<4>(relations, formula, &read, results),
        _ => write::<5>(relations, formula, &read, results),
    })
}

/// Apply.
pub fn apply(
    bytes: &[u8],
    node: usize,
    instantiation: &[u8],
    work: &mut [u8],
    schema: &mut [u8],
    out: &mut [u8],
) -> Apply {
    match lengths(bytes, node, instantiation, work, [schema, out]) {
        Ok((schema, output)) => Apply::Applied { schema, output },
        Err(number) => Apply::Refused { number },
    }
}
