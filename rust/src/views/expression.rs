//! Accepted expression files.

use core::fmt::{self, Display, Formatter};

use crate::{read_node, Node};

/// An accepted expression file (FORMAT, section 1), which [`accept`](crate::accept),
/// [`parse_query`](crate::parse_query) and [`edit`](crate::edit) give. Its text has a line for each
/// node.
///
/// ```
/// use type_formula::{accept, Refusal};
///
/// // E9: r0 ∪ π{1}(r1).
/// let file = [2, 4, 0x01, 0, 0x01, 1, 0x1a, 1, 6, 2, 0, 0x0e, 0, 2, 1];
/// let text = "\
/// node 0: r0
/// node 1: r1
/// node 2: projection {a1} of node 1
/// node 3: union of nodes 0 and 2
/// ";
/// assert_eq!(accept(&file)?.to_string(), text);
/// # Ok::<(), Refusal>(())
/// ```
#[derive(Clone, Copy, Debug, PartialEq, Eq, Hash)]
pub struct Expression<'a> {
    bytes: &'a [u8],
}

impl<'a> Expression<'a> {
    /// The view of bytes that an operation accepted or wrote as an expression file.
    pub(crate) fn of_accepted(bytes: &'a [u8]) -> Self {
        Expression { bytes }
    }

    /// The bytes of the file.
    pub fn bytes(self) -> &'a [u8] {
        self.bytes
    }

    /// The relation count m, 1 to 8.
    pub fn relation_count(self) -> u8 {
        self.bytes[0]
    }

    /// The node count n, 1 to 64.
    pub fn node_count(self) -> u8 {
        self.bytes[1]
    }

    /// The nodes, from node 0.
    pub fn nodes(self) -> Nodes<'a> {
        Nodes {
            relations: self.relation_count(),
            number: 0,
            rest: &self.bytes[2..],
        }
    }

    /// The node of this number, if it is below n.
    pub fn node(self, number: usize) -> Option<Node> {
        self.nodes().nth(number)
    }

    /// The set of the attributes that the nodes name.
    pub(crate) fn named(self) -> u16 {
        self.nodes().fold(0, |named, node| named | node.named())
    }
}

impl Display for Expression<'_> {
    fn fmt(&self, f: &mut Formatter<'_>) -> fmt::Result {
        for (number, node) in self.nodes().enumerate() {
            writeln!(f, "node {number}: {node}")?;
        }
        Ok(())
    }
}

/// The nodes of an accepted file.
#[derive(Clone, Debug)]
pub struct Nodes<'a> {
    relations: u8,
    number: u8,
    rest: &'a [u8],
}

impl Iterator for Nodes<'_> {
    type Item = Node;

    fn next(&mut self) -> Option<Node> {
        let (node, size) = read_node(self.relations, self.number, self.rest).ok()?;
        self.number += 1;
        self.rest = &self.rest[size..];
        Some(node)
    }
}
