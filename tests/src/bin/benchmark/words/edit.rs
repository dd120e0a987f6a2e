//! Edit and Preview. Preview writes no edited file: the node is exchanged as the formulas are made.

use type_formula_tests::reference::{
    Edit, Node, Preview, BYTES_AFTER_LAST_NODE, EDIT_SLICE_TOO_SHORT, FILE_LENGTH,
};

use super::cover::{best_cover, read_allowed};
use super::reader::{accept, accept_with, read_node, refuse_if};
use super::{check_node, check_work_space, fill_with};

/// The node that is the whole of a record.
#[inline(always)]
fn whole_node(relations: u8, node: usize, record: &[u8]) -> Result<Node, u8> {
    let (node, rest) = read_node(relations, node as u8, record)?;
    refuse_if(!rest.is_empty(), BYTES_AFTER_LAST_NODE)?;
    Ok(node)
}

/// The length of the edited file, which is written, or the first refusal.
#[inline(always)]
fn exchange(bytes: &[u8], node: usize, record: &[u8], result: &mut [u8]) -> Result<usize, u8> {
    let (mut number, mut place, mut part) = (0, 2, 0..0);
    let file = accept_with(bytes, |_, after| {
        let next = bytes.len() - after.len();
        if number == node {
            part = place..next;
        }
        (number, place) = (number + 1, next);
    })?;
    check_node(&file, node)?;
    refuse_if(result.len() < FILE_LENGTH, EDIT_SLICE_TOO_SHORT)?;
    whole_node(file.relations, node, record)?;
    let (before, after) = (&bytes[..part.start], &bytes[part.end..]);
    let end = before.len() + record.len();
    result[..before.len()].copy_from_slice(before);
    result[before.len()..end].copy_from_slice(record);
    result[end..end + after.len()].copy_from_slice(after);
    Ok(end + after.len())
}

/// Edit.
pub fn edit(bytes: &[u8], node: usize, record: &[u8], result: &mut [u8]) -> Edit {
    match exchange(bytes, node, record, result) {
        Ok(length) => Edit::Edited { length },
        Err(number) => Edit::Refused { number },
    }
}

/// What is said of the last node, or the first refusal.
#[inline(always)]
fn decide(bytes: &[u8], node: usize, record: &[u8], work: &mut [u8]) -> Result<Preview, u8> {
    let file = accept(bytes)?;
    check_node(&file, node)?;
    check_work_space(&file, work)?;
    let exchanged = whole_node(file.relations, node, record)?;
    fill_with(file, work, |number, old| match number == node {
        true => exchanged,
        false => old,
    });
    let allowed = read_allowed(work, file.nodes - 1);
    Ok(match best_cover(&allowed, file.relations) {
        Ok(cover) => Preview::Typable {
            memberships: cover.memberships,
        },
        Err(attribute) => Preview::Untypable { attribute },
    })
}

/// Preview.
pub fn preview(bytes: &[u8], node: usize, record: &[u8], work: &mut [u8]) -> Preview {
    decide(bytes, node, record, work).unwrap_or_else(|number| Preview::Refused { number })
}
