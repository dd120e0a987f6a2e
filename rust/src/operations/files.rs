//! Expression files and their nodes.

use crate::c::calls;
use crate::{Expression, Node, Refusal};

/// Accepts an expression file; its counts are those of the [`Expression`]. Refusals: 1 to 10.
///
/// ```
/// use type_formula::{accept, Refusal};
///
/// // E8: the projection {} of r0.
/// let file = [1, 2, 0x01, 0, 0x1a, 0, 6, 0, 0];
/// let expression = accept(&file)?;
/// assert_eq!((expression.relation_count(), expression.node_count()), (1, 2));
///
/// assert_eq!(accept(&file[..8]), Err(Refusal::NodeTruncated));
/// # Ok::<(), Refusal>(())
/// ```
pub fn accept(file: &[u8]) -> Result<Expression<'_>, Refusal> {
    let (mut relations, mut nodes) = (0, 0);
    match calls::accept(file, &mut relations, &mut nodes) {
        0 => Ok(Expression::of_accepted(file)),
        number => Err(Refusal::answered(number)),
    }
}

/// Record: the part of the file that holds a node, its map and its fields. Refusals: 1 to 11.
///
/// ```
/// use type_formula::{record, Refusal};
///
/// // E8: the projection {} of r0.
/// let file = [1, 2, 0x01, 0, 0x1a, 0, 6, 0, 0];
/// assert_eq!(record(&file, 0), Ok(&[0x01, 0][..]));
/// assert_eq!(record(&file, 1), Ok(&[0x1a, 0, 6, 0, 0][..]));
/// assert_eq!(record(&file, 2), Err(Refusal::NodeNumber));
/// ```
pub fn record(file: &[u8], node: usize) -> Result<&[u8], Refusal> {
    let mut start = 0;
    match calls::record(file, node, &mut start) {
        // The C function gives no number; the file's own refusals come first (FORMAT 8.5).
        0 => accept(file).and(Err(Refusal::NodeNumber)),
        length => Ok(&file[start..start + length]),
    }
}

/// Reads one node, with this number, off the front of the bytes, in a file of so many relations,
/// and gives it with the number of its bytes. Refusals: 4 to 9.
///
/// Any count and any number will do: relation numbers and operands are compared with them.
///
/// ```
/// use type_formula::{read_node, Node, Refusal, SetOp};
///
/// // The last node of E1, and a byte after it.
/// let bytes = [0x1a, 5, 5, 0x0c, 0, 0xff];
/// let node = Node::WithSet { op: SetOp::Selection, operand: 5, set: 0b1100 };
/// assert_eq!(read_node(3, 6, &bytes), Ok((node, 5)));
///
/// // As node 5 it would be its own operand.
/// assert_eq!(read_node(3, 5, &bytes), Err(Refusal::Operand));
/// ```
pub fn read_node(relations: u8, number: u8, bytes: &[u8]) -> Result<(Node, usize), Refusal> {
    let [refusal, size, node @ .., _] = calls::read_node(relations, number, bytes).to_le_bytes();
    match refusal {
        0 => Ok((Node::from_bytes(node), usize::from(size))),
        number => Err(Refusal::answered(number)),
    }
}
