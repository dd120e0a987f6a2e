//! Expression files and the operation Record, written plainly from document 01.

use std::ops::Range;

/// Refusal numbers.
pub const FEWER_THAN_TWO_BYTES: u8 = 1;
pub const RELATION_COUNT_OUTSIDE_RANGE: u8 = 2;
pub const NODE_COUNT_OUTSIDE_RANGE: u8 = 3;
pub const BYTES_END_BEFORE_OR_WITHIN_NODE: u8 = 4;
pub const MAP_NOT_LEGAL: u8 = 5;
pub const CODE_NOT_OF_MAP: u8 = 6;
pub const RELATION_NOT_BELOW_COUNT: u8 = 7;
pub const OPERAND_NOT_EARLIER: u8 = 8;
pub const ATTRIBUTE_OUTSIDE_RANGE: u8 = 9;
pub const BYTES_AFTER_LAST_NODE: u8 = 10;
pub const NODE_NOT_BELOW_COUNT: u8 = 11;
pub const WORK_SPACE_TOO_SHORT: u8 = 12;
pub const RESULT_SLICE_TOO_SHORT: u8 = 13;
pub const BYTES_END_EARLY: u8 = 14;
pub const COUNT_BYTE_ZERO: u8 = 15;
pub const LISTED_ATTRIBUTE_TOO_LOW: u8 = 16;
pub const BYTES_LEFT_OVER: u8 = 17;
pub const TOO_MANY_ORDINARY_ATTRIBUTES: u8 = 18;
pub const ATTRIBUTE_IN_TWO_LISTS: u8 = 19;
pub const STANDING_BIT_NO_TYPE_VARIABLE: u8 = 20;
pub const SUBSET_NOT_ALLOWED: u8 = 21;
pub const TEXT_NOT_IN_LANGUAGE: u8 = 22;
pub const TEXT_TOO_LONG: u8 = 23;
pub const TOO_MANY_NODES: u8 = 24;
pub const EMPTY_RECORD: u8 = 25;
pub const IMAGE_NOT_FILLED: u8 = 26;
pub const EDIT_SLICE_TOO_SHORT: u8 = 27;

/// The five legal bit maps of a node.
pub const RELATION_MAP: u8 = 1;
pub const PAIR_MAP: u8 = 14;
pub const SET_MAP: u8 = 26;
pub const RENAMING_MAP: u8 = 98;
pub const PROJECTING_OUT_MAP: u8 = 34;
pub const LEGAL_MAPS: [u8; 5] = [
    RELATION_MAP,
    PAIR_MAP,
    SET_MAP,
    RENAMING_MAP,
    PROJECTING_OUT_MAP,
];

/// Operator codes.
const UNION: u8 = 1;
const DIFFERENCE: u8 = 2;
const NATURAL_JOIN: u8 = 3;
const PRODUCT: u8 = 4;
const SELECTION: u8 = 5;
const PROJECTION: u8 = 6;

/// A node of an expression file. Operands are node numbers; bit i of a set stands
/// for attribute i.
#[derive(Clone, Copy, Debug, PartialEq, Eq)]
pub enum Node {
    Relation { relation: u8 },
    Union { left: u8, right: u8 },
    Difference { left: u8, right: u8 },
    NaturalJoin { left: u8, right: u8 },
    Product { left: u8, right: u8 },
    Selection { operand: u8, set: u16 },
    Projection { operand: u8, set: u16 },
    Renaming { operand: u8, old: u8, new: u8 },
    ProjectingOut { operand: u8, old: u8 },
}

/// An accepted expression file: relation count m, its nodes, and for each node the
/// part of the bytes that holds it.
#[derive(Clone, Debug, PartialEq, Eq)]
pub struct File {
    pub relations: u8,
    pub nodes: Vec<Node>,
    pub parts: Vec<Range<usize>>,
}

/// The fields of a node. The order is that of the bits 0 to 6 of the map.
#[derive(Clone, Copy)]
enum Field {
    Relation,
    Left,
    Right,
    Code,
    Set,
    Old,
    New,
}

const FIELDS: [Field; 7] = [
    Field::Relation,
    Field::Left,
    Field::Right,
    Field::Code,
    Field::Set,
    Field::Old,
    Field::New,
];

impl Field {
    /// The number of bytes of the field.
    fn width(self) -> usize {
        match self {
            Field::Set => 2,
            _ => 1,
        }
    }
}

/// The fields whose bit stands in the map, in bit order.
fn fields_of(map: u8) -> impl Iterator<Item = Field> {
    FIELDS
        .into_iter()
        .filter(move |&field| map >> (field as u8) & 1 == 1)
}

/// The number of bytes of a node with this map, the map included.
fn node_length(map: u8) -> usize {
    1 + fields_of(map).map(Field::width).sum::<usize>()
}

/// A place in bytes that are known to suffice.
struct Cursor<'a> {
    bytes: &'a [u8],
    position: usize,
}

impl Cursor<'_> {
    /// The value of the next `width` bytes, low first.
    fn take(&mut self, width: usize) -> u16 {
        let taken = &self.bytes[self.position..self.position + width];
        self.position += width;
        taken
            .iter()
            .rev()
            .fold(0, |value, &byte| value << 8 | u16::from(byte))
    }
}

/// What the conditions on the fields of a node depend on.
struct Context {
    relations: u8,
    number: u8,
    map: u8,
}

/// Whether the code is one of the map's.
fn code_belongs(map: u8, code: u16) -> bool {
    match map {
        PAIR_MAP => (1..=4).contains(&code),
        SET_MAP => (5..=6).contains(&code),
        _ => false,
    }
}

/// The condition on one field, or the refusal if it fails.
fn check_field(field: Field, value: u16, context: &Context) -> Result<(), u8> {
    let (holds, refusal) = match field {
        Field::Relation => (
            value < u16::from(context.relations),
            RELATION_NOT_BELOW_COUNT,
        ),
        Field::Left | Field::Right => (value < u16::from(context.number), OPERAND_NOT_EARLIER),
        Field::Code => (code_belongs(context.map, value), CODE_NOT_OF_MAP),
        Field::Set => (value & 1 == 0, ATTRIBUTE_OUTSIDE_RANGE),
        Field::Old | Field::New => ((1..=15).contains(&value), ATTRIBUTE_OUTSIDE_RANGE),
    };
    if holds {
        Ok(())
    } else {
        Err(refusal)
    }
}

/// The values of the fields, by bit; 0 where the bit does not stand.
type Values = [u16; 7];

/// The node with this map and these checked values.
fn node_of(map: u8, values: &Values) -> Node {
    let byte = |field: Field| values[field as usize] as u8;
    let relation = byte(Field::Relation);
    let (left, right) = (byte(Field::Left), byte(Field::Right));
    let (operand, set) = (left, values[Field::Set as usize]);
    let (old, new) = (byte(Field::Old), byte(Field::New));
    match (map, byte(Field::Code)) {
        (RELATION_MAP, _) => Node::Relation { relation },
        (PAIR_MAP, UNION) => Node::Union { left, right },
        (PAIR_MAP, DIFFERENCE) => Node::Difference { left, right },
        (PAIR_MAP, NATURAL_JOIN) => Node::NaturalJoin { left, right },
        (PAIR_MAP, PRODUCT) => Node::Product { left, right },
        (SET_MAP, SELECTION) => Node::Selection { operand, set },
        (SET_MAP, PROJECTION) => Node::Projection { operand, set },
        (RENAMING_MAP, _) => Node::Renaming { operand, old, new },
        (PROJECTING_OUT_MAP, _) => Node::ProjectingOut { operand, old },
        _ => unreachable!("map and code are checked"),
    }
}

/// Reads the node with the given number off the front of the bytes, in a file of
/// the given relation count. Gives the node and its length, or the first refusal:
/// 4 without a map byte, 5, 4, then the fields in bit order.
pub fn read_node(relations: u8, number: u8, bytes: &[u8]) -> Result<(Node, usize), u8> {
    let &map = bytes.first().ok_or(BYTES_END_BEFORE_OR_WITHIN_NODE)?;
    if !LEGAL_MAPS.contains(&map) {
        return Err(MAP_NOT_LEGAL);
    }
    if bytes.len() < node_length(map) {
        return Err(BYTES_END_BEFORE_OR_WITHIN_NODE);
    }
    let context = Context {
        relations,
        number,
        map,
    };
    let mut cursor = Cursor { bytes, position: 1 };
    let mut values: Values = [0; 7];
    for field in fields_of(map) {
        let value = cursor.take(field.width());
        check_field(field, value, &context)?;
        values[field as usize] = value;
    }
    Ok((node_of(map, &values), cursor.position))
}

/// Reads relation count m and node count n, or gives the refusal 1, 2 or 3.
fn read_header(bytes: &[u8]) -> Result<(u8, u8), u8> {
    let &[relations, count, ..] = bytes else {
        return Err(FEWER_THAN_TWO_BYTES);
    };
    if !(1..=8).contains(&relations) {
        return Err(RELATION_COUNT_OUTSIDE_RANGE);
    }
    if !(1..=64).contains(&count) {
        return Err(NODE_COUNT_OUTSIDE_RANGE);
    }
    Ok((relations, count))
}

/// Reads an expression file, or gives its first refusal, one of 1 to 10.
pub fn read_file(bytes: &[u8]) -> Result<File, u8> {
    let (relations, count) = read_header(bytes)?;
    let mut nodes = Vec::new();
    let mut parts = Vec::new();
    let mut start = 2;
    for number in 0..count {
        let (node, length) = read_node(relations, number, &bytes[start..])?;
        nodes.push(node);
        parts.push(start..start + length);
        start += length;
    }
    if start < bytes.len() {
        return Err(BYTES_AFTER_LAST_NODE);
    }
    Ok(File {
        relations,
        nodes,
        parts,
    })
}

/// Record: the part of the file that holds the node; none where one of 1 to 11
/// applies.
pub fn record(bytes: &[u8], node: usize) -> Option<Range<usize>> {
    read_file(bytes).ok()?.parts.get(node).cloned()
}

/// The bytes of a node.
pub fn encode_node(node: &Node) -> Vec<u8> {
    let pair = |left, right, code| vec![PAIR_MAP, left, right, code];
    let with_set = |operand, code, set: u16| {
        let [low, high] = set.to_le_bytes();
        vec![SET_MAP, operand, code, low, high]
    };
    match *node {
        Node::Relation { relation } => vec![RELATION_MAP, relation],
        Node::Union { left, right } => pair(left, right, UNION),
        Node::Difference { left, right } => pair(left, right, DIFFERENCE),
        Node::NaturalJoin { left, right } => pair(left, right, NATURAL_JOIN),
        Node::Product { left, right } => pair(left, right, PRODUCT),
        Node::Selection { operand, set } => with_set(operand, SELECTION, set),
        Node::Projection { operand, set } => with_set(operand, PROJECTION, set),
        Node::Renaming { operand, old, new } => vec![RENAMING_MAP, operand, old, new],
        Node::ProjectingOut { operand, old } => vec![PROJECTING_OUT_MAP, operand, old],
    }
}

/// The bytes of the expression file with this relation count and these nodes.
pub fn encode_file(relations: u8, nodes: &[Node]) -> Vec<u8> {
    let mut bytes = vec![relations, nodes.len() as u8];
    for node in nodes {
        bytes.extend(encode_node(node));
    }
    bytes
}
