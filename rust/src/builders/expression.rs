//! Building an expression file.

use super::buffer::Buffer;
use crate::attributes::set_of;
use crate::{
    accept, read_node, BinaryOp, Expression, Node, Refusal, SetOp, LONGEST_FILE, MOST_NODES,
    MOST_RELATIONS,
};

/// Builds an expression file node by node. Each method that adds a node gives its number, to be
/// used as an operand. A node that is refused leaves the builder as it was; the refusal is the one
/// that [`accept`] would give to a file with the node.
///
/// ```
/// use type_formula::{ExpressionBuilder, Refusal};
///
/// // E1: σ{2,3}((ρ1/2(r0) ∪ r1) ⋈ r2).
/// let mut query = ExpressionBuilder::new(3)?;
/// let r0 = query.relation(0)?;
/// let renamed = query.renaming(r0, 1, 2)?;
/// let r1 = query.relation(1)?;
/// let united = query.union(renamed, r1)?;
/// let r2 = query.relation(2)?;
/// let joined = query.join(united, r2)?;
/// query.selection(joined, [2, 3])?;
///
/// let file = query.expression()?.bytes();
/// assert_eq!(file[..8], [3, 7, 0x01, 0, 0x62, 0, 1, 2]);
/// assert_eq!(file[20..], [0x1a, 5, 5, 0x0c, 0]);
///
/// // Node 7 would be its own operand, and there is no special attribute 16.
/// assert_eq!(query.union(6, 7), Err(Refusal::Operand));
/// assert_eq!(query.projecting_out(6, 16), Err(Refusal::Attribute));
/// # Ok::<(), Refusal>(())
/// ```
#[derive(Clone, Debug)]
pub struct ExpressionBuilder {
    file: Buffer<LONGEST_FILE>,
}

impl ExpressionBuilder {
    /// A file of so many relations, without a node. It is
    /// [`RelationCount`](Refusal::RelationCount) if they are not 1 to 8.
    pub fn new(relations: u8) -> Result<Self, Refusal> {
        if !(1..=MOST_RELATIONS).contains(&usize::from(relations)) {
            return Err(Refusal::RelationCount);
        }
        Ok(ExpressionBuilder {
            file: Buffer::new(&[relations, 0]),
        })
    }

    /// Adds a node. Refusals: 3 where there are 64 nodes, and 7 to 9.
    pub fn add(&mut self, node: Node) -> Result<u8, Refusal> {
        let (relations, number) = (self.file.bytes()[0], self.file.bytes()[1]);
        if usize::from(number) == MOST_NODES {
            return Err(Refusal::NodeCount);
        }
        let record = node.record();
        read_node(relations, number, record.bytes())?;
        self.file.insert(self.file.length(), record.bytes());
        self.file.bytes_mut()[1] += 1;
        Ok(number)
    }

    fn binary(&mut self, op: BinaryOp, left: u8, right: u8) -> Result<u8, Refusal> {
        self.add(Node::Binary { op, left, right })
    }

    fn with_set(
        &mut self,
        op: SetOp,
        operand: u8,
        attributes: impl IntoIterator<Item = u8>,
    ) -> Result<u8, Refusal> {
        let set = set_of(attributes);
        self.add(Node::WithSet { op, operand, set })
    }

    /// Adds a relation.
    pub fn relation(&mut self, relation: u8) -> Result<u8, Refusal> {
        self.add(Node::Relation { relation })
    }

    /// Adds the union of two nodes.
    pub fn union(&mut self, left: u8, right: u8) -> Result<u8, Refusal> {
        self.binary(BinaryOp::Union, left, right)
    }

    /// Adds the difference of two nodes.
    pub fn difference(&mut self, left: u8, right: u8) -> Result<u8, Refusal> {
        self.binary(BinaryOp::Difference, left, right)
    }

    /// Adds the natural join of two nodes.
    pub fn join(&mut self, left: u8, right: u8) -> Result<u8, Refusal> {
        self.binary(BinaryOp::Join, left, right)
    }

    /// Adds the product of two nodes.
    pub fn product(&mut self, left: u8, right: u8) -> Result<u8, Refusal> {
        self.binary(BinaryOp::Product, left, right)
    }

    /// Adds the selection of a node by a condition on these attributes, 1 to 15.
    pub fn selection(
        &mut self,
        operand: u8,
        attributes: impl IntoIterator<Item = u8>,
    ) -> Result<u8, Refusal> {
        self.with_set(SetOp::Selection, operand, attributes)
    }

    /// Adds the projection of a node on these attributes, 1 to 15.
    pub fn projection(
        &mut self,
        operand: u8,
        attributes: impl IntoIterator<Item = u8>,
    ) -> Result<u8, Refusal> {
        self.with_set(SetOp::Projection, operand, attributes)
    }

    /// Adds a node with the attribute old, 1 to 15, renamed into new.
    pub fn renaming(&mut self, operand: u8, old: u8, new: u8) -> Result<u8, Refusal> {
        self.add(Node::Renaming { operand, old, new })
    }

    /// Adds a node without the attribute old, 1 to 15.
    pub fn projecting_out(&mut self, operand: u8, old: u8) -> Result<u8, Refusal> {
        self.add(Node::ProjectingOut { operand, old })
    }

    /// The file of the nodes added so far. It is [`NodeCount`](Refusal::NodeCount) if there is
    /// none.
    pub fn expression(&self) -> Result<Expression<'_>, Refusal> {
        accept(self.file.bytes())
    }
}
