//! Random nodes and expression files.

use crate::pseudorandom::Random;
use crate::reference::{encode_file, Node};

impl Random {
    /// A special attribute, 1 to 15.
    pub(crate) fn attribute(&mut self) -> u8 {
        self.between(1, 15)
    }

    /// An attribute set; one time in eight empty, one time in eight full.
    fn attribute_set(&mut self) -> u16 {
        match self.below(8) {
            0 => 0,
            1 => 0xfffe,
            _ => self.word() as u16 & 0xfffe,
        }
    }

    /// An attribute set of at most two attributes.
    fn small_attribute_set(&mut self) -> u16 {
        let pair = 1 << self.attribute() | 1 << self.attribute();
        [0, 1 << self.attribute(), pair][self.below(3)]
    }

    /// A node that is accepted at this number; node 0 is a relation.
    pub fn node(&mut self, relations: u8, number: u8) -> Node {
        let relation = self.between(0, relations - 1);
        if number == 0 {
            return Node::Relation { relation };
        }
        let (left, right) = (self.between(0, number - 1), self.between(0, number - 1));
        let (operand, set) = (left, self.attribute_set());
        let (old, new) = (self.attribute(), self.attribute());
        match self.below(9) {
            0 => Node::Relation { relation },
            1 => Node::Union { left, right },
            2 => Node::Difference { left, right },
            3 => Node::NaturalJoin { left, right },
            4 => Node::Product { left, right },
            5 => Node::Selection { operand, set },
            6 => Node::Projection { operand, set },
            7 => Node::Renaming { operand, old, new },
            _ => Node::ProjectingOut { operand, old },
        }
    }

    /// A node as above that seldom makes an expression untypable: few sets, those
    /// small, and operands that are often among the last four.
    pub fn mild_node(&mut self, relations: u8, number: u8) -> Node {
        let relation = self.between(0, relations - 1);
        if number == 0 || self.below(4) == 0 {
            return Node::Relation { relation };
        }
        let lowest = if self.below(4) == 0 {
            0
        } else {
            number.saturating_sub(4)
        };
        let (left, right) = (
            self.between(lowest, number - 1),
            self.between(lowest, number - 1),
        );
        let (operand, set) = (left, self.small_attribute_set());
        let (old, new) = (self.attribute(), self.attribute());
        match self.below(13) {
            0 => Node::Union { left, right },
            1 => Node::Difference { left, right },
            2..=5 => Node::NaturalJoin { left, right },
            6 => Node::Product { left, right },
            7..=8 => Node::Selection { operand, set },
            9 => Node::Projection { operand, set },
            10..=11 => Node::Renaming { operand, old, new },
            _ => Node::ProjectingOut { operand, old },
        }
    }

    /// The nodes of an accepted file that are often typable.
    pub fn mild_nodes(&mut self, relations: u8, count: u8) -> Vec<Node> {
        (0..count)
            .map(|number| self.mild_node(relations, number))
            .collect()
    }

    /// An accepted file whose nodes are often typable.
    pub fn mild_file(&mut self, relations: u8, count: u8) -> Vec<u8> {
        encode_file(relations, &self.mild_nodes(relations, count))
    }

    /// A pair of these nodes.
    fn pair(&mut self, left: u8, right: u8) -> Node {
        match self.below(8) {
            0..=2 => Node::Union { left, right },
            3 => Node::Difference { left, right },
            4..=6 => Node::NaturalJoin { left, right },
            _ => Node::Product { left, right },
        }
    }

    /// The relations, a tree of pairs in which each occurs once, and a selection of one to
    /// three attributes, all typable: several subsets are allowed for the attributes, and
    /// the lowest often has more members than another.
    pub fn tree_nodes(&mut self, relations: u8) -> Vec<Node> {
        let mut nodes: Vec<Node> = (0..relations)
            .map(|relation| Node::Relation { relation })
            .collect();
        let mut roots: Vec<u8> = (0..relations).collect();
        while roots.len() > 1 {
            let left = roots.swap_remove(self.below(roots.len()));
            let right = roots.swap_remove(self.below(roots.len()));
            roots.push(nodes.len() as u8);
            nodes.push(self.pair(left, right));
        }
        let (operand, set) = (roots[0], 1 << self.attribute() | self.small_attribute_set());
        nodes.push(Node::Selection { operand, set });
        nodes
    }

    /// The file of such nodes.
    pub fn tree_file(&mut self, relations: u8) -> Vec<u8> {
        encode_file(relations, &self.tree_nodes(relations))
    }

    /// The nodes of an accepted file with m relations and n nodes.
    pub fn nodes(&mut self, relations: u8, count: u8) -> Vec<Node> {
        (0..count)
            .map(|number| self.node(relations, number))
            .collect()
    }

    /// An accepted file with m relations and n nodes.
    pub fn accepted_file(&mut self, relations: u8, count: u8) -> Vec<u8> {
        encode_file(relations, &self.nodes(relations, count))
    }

    /// An accepted file with any m and n.
    pub fn any_accepted_file(&mut self) -> Vec<u8> {
        let (relations, count) = (self.between(1, 8), self.between(1, 64));
        self.accepted_file(relations, count)
    }

    /// An accepted file, most often of typable nodes.
    pub fn likely_file(&mut self, relations: u8, count: u8) -> Vec<u8> {
        match self.below(3) {
            0 => self.accepted_file(relations, count),
            _ => self.mild_file(relations, count),
        }
    }
}
