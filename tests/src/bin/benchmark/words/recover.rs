//! Recover: the subsets of a schema, tested by the stored formula.

use type_formula_tests::reference::{Recover, INSTANTIATION_LENGTH};

use super::buffer::room;
use super::columns::stored;
use super::instantiation::{subsets_of, write_instantiation, Lists};
use super::reader::accept;
use super::schema::read_schema;
use super::{check_node, check_result, check_subsets, check_work_space, fill};

/// The length of the instantiation, none if the node has no type, or the first refusal.
#[inline(always)]
fn length(
    bytes: &[u8],
    node: usize,
    schema: &[u8],
    work: &mut [u8],
    out: &mut [u8],
) -> Result<Option<usize>, u8> {
    let file = accept(bytes)?;
    check_node(&file, node)?;
    check_work_space(&file, work)?;
    check_result(out, INSTANTIATION_LENGTH)?;
    let (mut first, mut second) = (room(), room());
    let schema = read_schema(file.relations, schema, [&mut first, &mut second])?;
    fill(file, work);
    let subsets = subsets_of(&schema.maps);
    let mut lists = Lists::new();
    lists.count(schema.entries);
    if check_subsets(stored(work, node), &lists.map, &subsets).is_err() {
        return Ok(None);
    }
    let length = write_instantiation(&schema, &subsets, &mut lists, out);
    Ok(Some(length))
}

/// Recover.
pub fn recover(
    bytes: &[u8],
    node: usize,
    schema: &[u8],
    work: &mut [u8],
    instantiation: &mut [u8],
) -> Recover {
    match length(bytes, node, schema, work, instantiation) {
        Ok(Some(length)) => Recover::Recovered { length },
        Ok(None) => Recover::Untyped,
        Err(number) => Recover::Refused { number },
    }
}
