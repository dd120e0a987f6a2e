//! Random columns to choose a cover from, and files whose relations are filled in several ways, or
//! cannot be.

use crate::pseudorandom::Random;
use crate::reference::{encode_file, Choices, Node};

/// How the relations of a file's last node are filled.
#[derive(Clone, Copy, Debug, PartialEq, Eq)]
pub enum FileKind {
    /// By the subsets with the fewest members.
    Fewest,
    /// By type variables, most often.
    Variables,
    /// Not all of them.
    Empty,
    /// A column allows nothing.
    Blocked,
    /// By one of many choices, most often.
    Columns,
    /// As it comes.
    Mild,
}

impl FileKind {
    pub const ALL: [FileKind; 6] = [
        FileKind::Fewest,
        FileKind::Variables,
        FileKind::Empty,
        FileKind::Blocked,
        FileKind::Columns,
        FileKind::Mild,
    ];
}

/// The nodes of a file, to which nodes are added.
struct Nodes {
    nodes: Vec<Node>,
}

impl Nodes {
    /// So many relations, each at the place of its number.
    fn of_relations(relations: u8) -> Self {
        let nodes = (0..relations).map(|relation| Node::Relation { relation });
        Nodes {
            nodes: nodes.collect(),
        }
    }

    /// The number of the last node.
    fn last(&self) -> u8 {
        self.nodes.len() as u8 - 1
    }

    fn add(&mut self, node: Node) -> u8 {
        self.nodes.push(node);
        self.last()
    }

    /// Some nodes, one after the other, by an operator of two.
    fn add_all(&mut self, all: &[u8], pair: impl Fn(u8, u8) -> Node) -> u8 {
        let (first, others) = all.split_first().expect("a node");
        let with = |left, &right: &u8| self.add(pair(left, right));
        others.iter().fold(*first, with)
    }

    fn join(&mut self, all: &[u8]) -> u8 {
        self.add_all(all, |left, right| Node::NaturalJoin { left, right })
    }

    fn product(&mut self, all: &[u8]) -> u8 {
        self.add_all(all, |left, right| Node::Product { left, right })
    }
}

impl Random {
    /// The numbers below a bound in any order.
    fn shuffled(&mut self, bound: u8) -> Vec<u8> {
        let mut numbers: Vec<u8> = (0..bound).collect();
        for place in (1..numbers.len()).rev() {
            numbers.swap(place, self.below(place + 1));
        }
        numbers
    }

    /// The set of so many special attributes.
    fn set_of(&mut self, count: usize) -> u16 {
        let attributes = self.shuffled(15).into_iter().take(count);
        attributes.fold(0, |set, attribute| set | 2 << attribute)
    }

    /// One to all of the relations, in any order.
    fn some_relations(&mut self, relations: u8) -> Vec<u8> {
        let mut some = self.shuffled(relations);
        some.truncate(1 + self.below(usize::from(relations)));
        some
    }

    /// A selection of each relation by an attribute of its own, joined in any order.
    fn filled_by_the_fewest(&mut self, relations: u8) -> Nodes {
        let mut nodes = Nodes::of_relations(relations);
        let mut selections = Vec::new();
        for (attribute, operand) in self.shuffled(15).into_iter().zip(self.shuffled(relations)) {
            let set = 2 << attribute;
            selections.push(nodes.add(Node::Selection { operand, set }));
        }
        nodes.join(&selections);
        nodes
    }

    /// A tree of relations, of more than three with a selection.
    fn filled_by_variables(&mut self, relations: u8) -> Nodes {
        let mut nodes = self.tree_nodes(relations);
        if relations <= 3 {
            nodes.pop();
        }
        Nodes { nodes }
    }

    /// A product of relations that has just the attributes of a set, which they share out; the
    /// attributes are in one more relation too.
    fn sharing(&mut self, nodes: &mut Nodes, all: &[u8], attributes: usize) -> u8 {
        let (operand, others) = all.split_first().expect("a relation");
        let (left, set) = (nodes.product(others), self.set_of(attributes));
        let right = nodes.add(Node::Projection {
            operand: *operand,
            set,
        });
        nodes.add(Node::Union { left, right })
    }

    /// A tree of relations in a product with one of them, or relations that share out too few
    /// attributes.
    fn not_filled(&mut self, relations: u8) -> Nodes {
        if relations >= 3 && self.below(2) == 0 {
            let mut nodes = Nodes::of_relations(relations);
            let all = self.shuffled(relations);
            let attributes = 1 + self.below(usize::from(relations) - 2);
            self.sharing(&mut nodes, &all, attributes);
            return nodes;
        }
        let mut nodes = Nodes {
            nodes: self.tree_nodes(relations),
        };
        nodes.nodes.pop();
        let (left, right) = (nodes.last(), self.between(0, relations - 1));
        nodes.add(Node::Product { left, right });
        nodes
    }

    /// A tree of relations with an attribute renamed into itself.
    fn blocked(&mut self, relations: u8) -> Nodes {
        let mut nodes = Nodes {
            nodes: self.tree_nodes(relations),
        };
        let (operand, old) = (nodes.last(), self.attribute());
        let new = old;
        nodes.add(Node::Renaming { operand, old, new });
        nodes
    }

    /// Selections of joins, products and unions of some relations, joined; now and then some
    /// relations share out attributes.
    fn of_many_choices(&mut self, relations: u8) -> Nodes {
        let mut nodes = Nodes::of_relations(relations);
        let mut parts = Vec::new();
        for _ in 0..self.between(1, 4) {
            let some = self.some_relations(relations);
            let operand = match self.below(6) {
                0 => nodes.product(&some),
                1 => nodes.add_all(&some, |left, right| Node::Union { left, right }),
                _ => nodes.join(&some),
            };
            let count = 1 + self.below(3);
            let set = self.set_of(count);
            parts.push(nodes.add(Node::Selection { operand, set }));
        }
        if relations >= 3 && self.below(4) == 0 {
            let all = self.shuffled(relations);
            let (sharing, attributes) = (3 + self.below(usize::from(relations) - 2), self.below(6));
            let attributes = sharing - 1 + attributes;
            parts.push(self.sharing(&mut nodes, &all[..sharing], attributes));
        }
        nodes.join(&parts);
        nodes
    }

    /// A file of this kind.
    pub fn file_of_kind(&mut self, kind: FileKind, relations: u8) -> Vec<u8> {
        let nodes = match kind {
            FileKind::Fewest => self.filled_by_the_fewest(relations),
            FileKind::Variables => self.filled_by_variables(relations),
            FileKind::Empty => self.not_filled(relations),
            FileKind::Blocked => self.blocked(relations),
            FileKind::Columns => self.of_many_choices(relations),
            FileKind::Mild => {
                let count = self.between(4, 16);
                return self.mild_file(relations, count);
            }
        };
        encode_file(relations, &nodes.nodes)
    }

    /// Subsets of so many relations, rising: at most so many, and often few.
    fn subsets(&mut self, relations: u8, most: usize) -> Vec<usize> {
        let count = 1 + self.below(most);
        let subsets = (0..count).map(|_| self.below(1 << relations));
        let mut subsets: Vec<usize> = subsets.collect();
        subsets.sort_unstable();
        subsets.dedup();
        subsets
    }

    /// Columns to choose from: variables, and special attributes of which a few allow any subsets,
    /// and the others the empty one or what ordinary attributes may have.
    pub fn choices(&mut self, relations: u8) -> Choices {
        let most = [0, 2, 5, 30][self.below(4)];
        let mut variables = self.subsets(relations, most + 1);
        variables.retain(|&s| s > 0);
        let like_ordinary = [&[0][..], &variables].concat();
        let mut special = std::array::from_fn(|_| vec![0]);
        for subsets in &mut special {
            match self.below(12) {
                0 => *subsets = like_ordinary.clone(),
                1..=2 => *subsets = self.subsets(relations, 12),
                _ => {}
            }
        }
        Choices {
            relations,
            special,
            variables,
        }
    }
}
