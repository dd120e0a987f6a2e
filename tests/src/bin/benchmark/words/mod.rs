//! Formula, Verdict, Edit, Preview, Typing, Apply, Recover and parsing a query written by hand for
//! speed: without an allocation, on 64-bit words, compiled for every x86-64 machine.

mod apply;
mod buffer;
mod columns;
mod cover;
mod edit;
mod instantiation;
mod lists;
mod query;
mod reader;
mod recover;
mod schema;
mod sets;
mod sort;
mod typing;

pub use apply::apply;
pub use edit::{edit, preview};
pub use query::parse_query;
pub use recover::recover;
pub use typing::typing;

use type_formula_tests::reference::{
    Formula, Node, Verdict, COLUMNS, FORMULA_LENGTH, NODE_NOT_BELOW_COUNT, RESULT_SLICE_TOO_SHORT,
    SCHEMA_LENGTH, STANDING_BIT_NO_TYPE_VARIABLE, SUBSET_NOT_ALLOWED, WORK_SPACE_TOO_SHORT,
};

use self::columns::{is_allowed, read_column, write_formula, Bits};
use self::cover::{best_cover, read_allowed, Cover};
use self::instantiation::maps_of;
use self::reader::{accept, refuse_if, File};

#[inline(always)]
fn check_node(file: &File, node: usize) -> Result<(), u8> {
    refuse_if(node >= usize::from(file.nodes), NODE_NOT_BELOW_COUNT)
}

#[inline(always)]
fn check_work_space(file: &File, work: &[u8]) -> Result<(), u8> {
    let is_short = work.len() < FORMULA_LENGTH * usize::from(file.nodes);
    refuse_if(is_short, WORK_SPACE_TOO_SHORT)
}

#[inline(always)]
fn check_result(result: &[u8], least: usize) -> Result<(), u8> {
    refuse_if(result.len() < least, RESULT_SLICE_TOO_SHORT)
}

/// Tests by a stored formula that each standing bit is a type variable and that the subset
/// of each special attribute is allowed.
#[inline(always)]
fn check_subsets(formula: &Formula, map: &Bits, subsets: &[u8; 16]) -> Result<(), u8> {
    let mut variables = read_column(formula, 0, 0).allowed;
    variables[0] &= !1;
    let others = (0..4).fold(0, |others, i| others | map[i] & !variables[i]);
    refuse_if(others != 0, STANDING_BIT_NO_TYPE_VARIABLE)?;
    let mut are_allowed = true;
    for (column, &s) in (1..COLUMNS).zip(&subsets[1..]) {
        are_allowed &= is_allowed(formula, column, s);
    }
    refuse_if(!are_allowed, SUBSET_NOT_ALLOWED)
}

/// Fills the work space with the formulas of the nodes that each one, by its number, is taken for.
#[inline(always)]
fn fill_with(file: File, work: &mut [u8], taken: impl Fn(usize, Node) -> Node) {
    file.each_node(|number, node| {
        let (earlier, formula) = work.split_at_mut(FORMULA_LENGTH * number);
        write_formula(taken(number, node), file.relations, earlier, formula);
    });
}

fn fill(file: File, work: &mut [u8]) {
    fill_with(file, work, |_, node| node);
}

/// Formula.
pub fn formula(bytes: &[u8], work: &mut [u8]) -> u8 {
    let file = match accept(bytes) {
        Ok(file) => file,
        Err(refusal) => return refusal,
    };
    if let Err(refusal) = check_work_space(&file, work) {
        return refusal;
    }
    fill(file, work);
    0
}

/// Writes the schema of a cover and gives its length: a record for each relation, with the special
/// attributes whose subset has it, and with ordinary ones from 16 on for the variables that have it.
#[inline(always)]
fn write_witness(cover: &Cover, relations: u8, schema: &mut [u8]) -> usize {
    let (maps, mut length) = (maps_of(&cover.subsets), 0);
    for relation in 0..usize::from(relations) {
        let [low, high] = maps[relation & 7].to_le_bytes();
        let (record, mut count) = (length, 0);
        for (place, variable) in cover.variables[..cover.count].iter().enumerate() {
            if variable >> relation & 1 == 1 {
                let start = record + 3 + 2 * count;
                schema[start..start + 2].copy_from_slice(&[16 + place as u8, 0]);
                count += 1;
            }
        }
        schema[record..record + 2].copy_from_slice(&[low | u8::from(count > 0), high]);
        length += 2;
        if count > 0 {
            schema[record + 2] = count as u8;
            length += 1 + 2 * count;
        }
    }
    length
}

/// The verdict, or the first refusal.
#[inline(always)]
fn decide(bytes: &[u8], node: usize, work: &mut [u8], schema: &mut [u8]) -> Result<Verdict, u8> {
    let file = accept(bytes)?;
    check_node(&file, node)?;
    check_work_space(&file, work)?;
    check_result(schema, SCHEMA_LENGTH)?;
    fill(file, work);
    let allowed = read_allowed(work, node as u8);
    Ok(match best_cover(&allowed, file.relations) {
        Ok(cover) => Verdict::Typable {
            length: write_witness(&cover, file.relations, schema),
            memberships: cover.memberships,
        },
        Err(attribute) => Verdict::Untypable { attribute },
    })
}

/// Verdict.
pub fn verdict(bytes: &[u8], node: usize, work: &mut [u8], schema: &mut [u8]) -> Verdict {
    decide(bytes, node, work, schema).unwrap_or_else(|number| Verdict::Refused { number })
}
