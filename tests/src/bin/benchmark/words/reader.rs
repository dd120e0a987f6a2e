//! Expression files read without an allocation: once to accept a file, and once more by
//! whoever wants its nodes.

use type_formula_tests::reference::{
    Node, ATTRIBUTE_OUTSIDE_RANGE, BYTES_AFTER_LAST_NODE, BYTES_END_BEFORE_OR_WITHIN_NODE,
    CODE_NOT_OF_MAP, FEWER_THAN_TWO_BYTES, MAP_NOT_LEGAL, NODE_COUNT_OUTSIDE_RANGE,
    OPERAND_NOT_EARLIER, PAIR_MAP, PROJECTING_OUT_MAP, RELATION_COUNT_OUTSIDE_RANGE, RELATION_MAP,
    RELATION_NOT_BELOW_COUNT, RENAMING_MAP, SET_MAP,
};

/// The counts of an accepted file and the bytes of its nodes.
#[derive(Clone, Copy)]
pub struct File<'a> {
    pub relations: u8,
    pub nodes: u8,
    bytes: &'a [u8],
}

/// So many bytes after a map, and what follows them.
#[inline(always)]
fn fields<const N: usize>(bytes: &[u8]) -> Result<(&[u8; N], &[u8]), u8> {
    bytes
        .split_first_chunk()
        .ok_or(BYTES_END_BEFORE_OR_WITHIN_NODE)
}

#[inline(always)]
pub fn refuse_if(test: bool, refusal: u8) -> Result<(), u8> {
    if test {
        Err(refusal)
    } else {
        Ok(())
    }
}

#[inline(always)]
fn check_attribute(attribute: u8) -> Result<(), u8> {
    refuse_if(attribute == 0 || attribute > 15, ATTRIBUTE_OUTSIDE_RANGE)
}

#[inline(always)]
fn pair(code: u8, left: u8, right: u8) -> Result<Node, u8> {
    match code {
        1 => Ok(Node::Union { left, right }),
        2 => Ok(Node::Difference { left, right }),
        3 => Ok(Node::NaturalJoin { left, right }),
        4 => Ok(Node::Product { left, right }),
        _ => Err(CODE_NOT_OF_MAP),
    }
}

#[inline(always)]
fn with_set(code: u8, operand: u8, set: u16) -> Result<Node, u8> {
    refuse_if(code != 5 && code != 6, CODE_NOT_OF_MAP)?;
    refuse_if(set & 1 == 1, ATTRIBUTE_OUTSIDE_RANGE)?;
    if code == 5 {
        Ok(Node::Selection { operand, set })
    } else {
        Ok(Node::Projection { operand, set })
    }
}

/// A node and the bytes after it.
#[inline(always)]
pub fn read_node(relations: u8, number: u8, bytes: &[u8]) -> Result<(Node, &[u8]), u8> {
    let (&map, rest) = bytes.split_first().ok_or(BYTES_END_BEFORE_OR_WITHIN_NODE)?;
    let check_operand = |operand| refuse_if(operand >= number, OPERAND_NOT_EARLIER);
    match map {
        RELATION_MAP => {
            let (&[relation], rest) = fields(rest)?;
            refuse_if(relation >= relations, RELATION_NOT_BELOW_COUNT)?;
            Ok((Node::Relation { relation }, rest))
        }
        PAIR_MAP => {
            let (&[left, right, code], rest) = fields(rest)?;
            check_operand(left)?;
            check_operand(right)?;
            Ok((pair(code, left, right)?, rest))
        }
        SET_MAP => {
            let (&[operand, code, low, high], rest) = fields(rest)?;
            check_operand(operand)?;
            Ok((
                with_set(code, operand, u16::from_le_bytes([low, high]))?,
                rest,
            ))
        }
        RENAMING_MAP => {
            let (&[operand, old, new], rest) = fields(rest)?;
            check_operand(operand)?;
            check_attribute(old)?;
            check_attribute(new)?;
            Ok((Node::Renaming { operand, old, new }, rest))
        }
        PROJECTING_OUT_MAP => {
            let (&[operand, old], rest) = fields(rest)?;
            check_operand(operand)?;
            check_attribute(old)?;
            Ok((Node::ProjectingOut { operand, old }, rest))
        }
        _ => Err(MAP_NOT_LEGAL),
    }
}

/// Accepts a file or gives its first refusal.
#[inline(always)]
pub fn accept(file: &[u8]) -> Result<File<'_>, u8> {
    accept_with(file, |_, _| ())
}

/// Accepts a file or gives its first refusal; hands on each node as it is read, and the bytes after
/// it.
#[inline(always)]
pub fn accept_with(file: &[u8], mut take: impl FnMut(Node, &[u8])) -> Result<File<'_>, u8> {
    let (&[relations, nodes], bytes) = file.split_first_chunk().ok_or(FEWER_THAN_TWO_BYTES)?;
    refuse_if(
        relations == 0 || relations > 8,
        RELATION_COUNT_OUTSIDE_RANGE,
    )?;
    refuse_if(nodes == 0 || nodes > 64, NODE_COUNT_OUTSIDE_RANGE)?;
    let mut rest = bytes;
    for number in 0..nodes {
        let (node, after) = read_node(relations, number, rest)?;
        take(node, after);
        rest = after;
    }
    refuse_if(!rest.is_empty(), BYTES_AFTER_LAST_NODE)?;
    Ok(File {
        relations,
        nodes,
        bytes,
    })
}

impl File<'_> {
    /// Hands on each node with its number.
    #[inline(always)]
    pub fn each_node(self, mut take: impl FnMut(usize, Node)) {
        let mut rest = self.bytes;
        for number in 0..self.nodes {
            let Ok((node, after)) = read_node(self.relations, number, rest) else {
                return;
            };
            take(usize::from(number), node);
            rest = after;
        }
    }
}
