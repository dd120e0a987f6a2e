//! Nodes of an expression.

use core::fmt::{self, Display, Formatter};

use crate::attributes::{specials, write_attributes, Attribute};

/// An operator of two operands, with its code.
#[derive(Clone, Copy, Debug, PartialEq, Eq, Hash)]
#[repr(u8)]
pub enum BinaryOp {
    /// Both operands have the same type, which is the result's.
    Union = 1,
    /// Both operands have the same type, which is the result's.
    Difference = 2,
    /// The natural join: the result has all attributes of either operand.
    Join = 3,
    /// As the natural join, of operands that have no attribute in common.
    Product = 4,
}

/// An operator of one operand and an attribute set, with its code.
#[derive(Clone, Copy, Debug, PartialEq, Eq, Hash)]
#[repr(u8)]
pub enum SetOp {
    /// The operand has each attribute of the set; the result has the operand's type.
    Selection = 5,
    /// The operand has each attribute of the set, which is the result's type.
    Projection = 6,
}

/// A node (FORMAT 1.4). An operand is the number of an earlier node.
///
/// ```
/// use type_formula::{Node, SetOp};
///
/// let node = Node::WithSet { op: SetOp::Selection, operand: 5, set: 0b1100 };
/// assert_eq!(node.to_string(), "selection {a2, a3} of node 5");
/// ```
#[derive(Clone, Copy, Debug, PartialEq, Eq, Hash)]
pub enum Node {
    /// A relation.
    Relation {
        /// Its number.
        relation: u8,
    },
    /// An operator of two operands.
    Binary {
        /// The operator.
        op: BinaryOp,
        /// The left operand.
        left: u8,
        /// The right operand.
        right: u8,
    },
    /// An operator of one operand and an attribute set.
    WithSet {
        /// The operator.
        op: SetOp,
        /// The operand.
        operand: u8,
        /// The set: bit i stands for attribute i, 1 to 15, and bit 0 is clear.
        set: u16,
    },
    /// Renaming of an attribute.
    Renaming {
        /// The operand.
        operand: u8,
        /// The attribute that goes.
        old: u8,
        /// The attribute that comes.
        new: u8,
    },
    /// Projecting out an attribute.
    ProjectingOut {
        /// The operand.
        operand: u8,
        /// The attribute that goes.
        old: u8,
    },
}

/// The most bytes of a node.
pub const LONGEST_NODE: usize = 5;

/// The record of a node: its map and its fields in bit order (FORMAT 1.2), 2 to 5 bytes. A file
/// that has the node has these bytes, [`record`](crate::record) gives them, and
/// [`edit`](crate::edit) and [`preview`](crate::preview) take them.
///
/// ```
/// use type_formula::{record, Node, Refusal, SetOp};
///
/// let node = Node::WithSet { op: SetOp::Projection, operand: 0, set: 0b1100 };
/// assert_eq!(node.record().bytes(), [0x1a, 0, 6, 0x0c, 0]);
///
/// // π{2,3}(r0).
/// let file = [1, 2, 0x01, 0, 0x1a, 0, 6, 0x0c, 0];
/// assert_eq!(record(&file, 1)?, node.record().bytes());
/// # Ok::<(), Refusal>(())
/// ```
#[derive(Clone, Copy, Debug, PartialEq, Eq, Hash)]
pub struct NodeRecord {
    bytes: [u8; LONGEST_NODE],
    size: usize,
}

impl NodeRecord {
    /// The record of these bytes.
    fn new<const SIZE: usize>(record: [u8; SIZE]) -> Self {
        let (mut bytes, size) = ([0; LONGEST_NODE], SIZE);
        bytes[..size].copy_from_slice(&record);
        NodeRecord { bytes, size }
    }

    /// The bytes of the record.
    pub fn bytes(&self) -> &[u8] {
        &self.bytes[..self.size]
    }
}

/// The operator of a code, at map 14.
fn binary_op(code: u8) -> BinaryOp {
    match code {
        1 => BinaryOp::Union,
        2 => BinaryOp::Difference,
        3 => BinaryOp::Join,
        4 => BinaryOp::Product,
        _ => unreachable!("the reader refuses other codes"),
    }
}

/// The operator of a code, at map 26.
fn set_op(code: u8) -> SetOp {
    match code {
        5 => SetOp::Selection,
        6 => SetOp::Projection,
        _ => unreachable!("the reader refuses other codes"),
    }
}

impl Node {
    /// The node of a legal map and of its fields in bit order.
    pub(crate) fn from_bytes(bytes: [u8; LONGEST_NODE]) -> Node {
        match bytes {
            [1, relation, ..] => Node::Relation { relation },
            [14, left, right, code, _] => Node::Binary {
                op: binary_op(code),
                left,
                right,
            },
            [26, operand, code, low, high] => Node::WithSet {
                op: set_op(code),
                operand,
                set: u16::from_le_bytes([low, high]),
            },
            [98, operand, old, new, _] => Node::Renaming { operand, old, new },
            [34, operand, old, ..] => Node::ProjectingOut { operand, old },
            _ => unreachable!("the reader refuses other maps"),
        }
    }

    /// The record of the node. Whether a file can have it at a place is for
    /// [`edit`](crate::edit) and [`preview`](crate::preview) to say.
    pub fn record(self) -> NodeRecord {
        match self {
            Node::Relation { relation } => NodeRecord::new([1, relation]),
            Node::Binary { op, left, right } => NodeRecord::new([14, left, right, op as u8]),
            Node::WithSet { op, operand, set } => {
                let [low, high] = set.to_le_bytes();
                NodeRecord::new([26, operand, op as u8, low, high])
            }
            Node::Renaming { operand, old, new } => NodeRecord::new([98, operand, old, new]),
            Node::ProjectingOut { operand, old } => NodeRecord::new([34, operand, old]),
        }
    }

    /// The set of the attributes that the node names.
    pub(crate) fn named(self) -> u16 {
        match self {
            Node::Relation { .. } | Node::Binary { .. } => 0,
            Node::WithSet { set, .. } => set,
            Node::Renaming { old, new, .. } => 1 << old | 1 << new,
            Node::ProjectingOut { old, .. } => 1 << old,
        }
    }
}

impl Display for BinaryOp {
    fn fmt(&self, f: &mut Formatter<'_>) -> fmt::Result {
        f.pad(match self {
            BinaryOp::Union => "union",
            BinaryOp::Difference => "difference",
            BinaryOp::Join => "natural join",
            BinaryOp::Product => "product",
        })
    }
}

impl Display for SetOp {
    fn fmt(&self, f: &mut Formatter<'_>) -> fmt::Result {
        f.pad(match self {
            SetOp::Selection => "selection",
            SetOp::Projection => "projection",
        })
    }
}

impl Display for Node {
    fn fmt(&self, f: &mut Formatter<'_>) -> fmt::Result {
        let attribute = |number: u8| Attribute(u16::from(number));
        match *self {
            Node::Relation { relation } => write!(f, "r{relation}"),
            Node::Binary { op, left, right } => write!(f, "{op} of nodes {left} and {right}"),
            Node::WithSet { op, operand, set } => {
                write!(f, "{op} {{")?;
                write_attributes(f, specials(set))?;
                write!(f, "}} of node {operand}")
            }
            Node::Renaming { operand, old, new } => {
                let (old, new) = (attribute(old), attribute(new));
                write!(f, "renaming of {old} into {new} in node {operand}")
            }
            Node::ProjectingOut { operand, old } => {
                write!(f, "projecting {} out of node {operand}", attribute(old))
            }
        }
    }
}
