//! Queries as trees. Text, file and answer are given by walks over the tree, so that they do
//! not depend on a reader of texts.

use crate::reference::{
    ATTRIBUTE_OUTSIDE_RANGE, FILE_LENGTH, LONGEST_TEXT, PAIR_MAP, PROJECTING_OUT_MAP,
    RELATION_COUNT_OUTSIDE_RANGE, RELATION_MAP, RELATION_NOT_BELOW_COUNT, RENAMING_MAP, SET_MAP,
    TEXT_TOO_LONG, TOO_MANY_NODES,
};

/// A query. Relations are one digit; attributes are written with one or two digits, and a list
/// of them rises.
#[derive(Clone, Debug)]
pub enum Query {
    Relation {
        relation: u8,
    },
    Pair {
        /// `+`, `-`, `*` or `#`.
        sign: char,
        left: Box<Query>,
        right: Box<Query>,
    },
    WithSet {
        /// `S` or `P`.
        letter: char,
        list: Vec<u8>,
        operand: Box<Query>,
    },
    Renaming {
        old: u8,
        new: u8,
        operand: Box<Query>,
    },
    ProjectingOut {
        old: u8,
        operand: Box<Query>,
    },
}

/// A relation.
pub fn relation(relation: u8) -> Query {
    Query::Relation { relation }
}

/// The number of the operator with this sign or letter.
fn code(sign: char) -> u8 {
    let place = "+-*#SP".find(sign).expect("a sign or a letter");
    1 + place as u8
}

/// The refusal of attributes of which one is outside the range.
fn fault_in(attributes: &[u8]) -> Option<u8> {
    let is_outside = |&attribute: &u8| attribute == 0 || attribute > 15;
    let has_fault = attributes.iter().any(is_outside);
    has_fault.then_some(ATTRIBUTE_OUTSIDE_RANGE)
}

impl Query {
    /// The union, difference, join or product of the query and another one.
    pub fn pair(self, sign: char, right: Query) -> Query {
        Query::Pair {
            sign,
            left: Box::new(self),
            right: Box::new(right),
        }
    }

    /// A selection or projection of the query.
    pub fn with_set(self, letter: char, list: impl IntoIterator<Item = u8>) -> Query {
        Query::WithSet {
            letter,
            list: list.into_iter().collect(),
            operand: Box::new(self),
        }
    }

    /// The query with an attribute renamed.
    pub fn renaming(self, old: u8, new: u8) -> Query {
        Query::Renaming {
            old,
            new,
            operand: Box::new(self),
        }
    }

    /// The query without an attribute.
    pub fn projecting_out(self, old: u8) -> Query {
        Query::ProjectingOut {
            old,
            operand: Box::new(self),
        }
    }

    fn write_text(&self, text: &mut String) {
        match self {
            Query::Relation { relation } => *text += &format!("r{relation}"),
            Query::Pair { sign, left, right } => {
                text.push('(');
                left.write_text(text);
                text.push(*sign);
                right.write_text(text);
                text.push(')');
            }
            Query::WithSet {
                letter,
                list,
                operand,
            } => {
                let list: Vec<String> = list.iter().map(u8::to_string).collect();
                *text += &format!("{letter}[{}]", list.join(","));
                operand.write_text(text);
            }
            Query::Renaming { old, new, operand } => {
                *text += &format!("N[{old}>{new}]");
                operand.write_text(text);
            }
            Query::ProjectingOut { old, operand } => {
                *text += &format!("D[{old}]");
                operand.write_text(text);
            }
        }
    }

    pub fn text(&self) -> String {
        let mut text = String::new();
        self.write_text(&mut text);
        text
    }

    pub fn node_count(&self) -> usize {
        match self {
            Query::Relation { .. } => 1,
            Query::Pair { left, right, .. } => 1 + left.node_count() + right.node_count(),
            Query::WithSet { operand, .. }
            | Query::Renaming { operand, .. }
            | Query::ProjectingOut { operand, .. } => 1 + operand.node_count(),
        }
    }

    /// The refusal of the leftmost number that is outside its range, if there is one.
    fn leftmost_fault(&self, relations: u8) -> Option<u8> {
        match self {
            Query::Relation { relation } => {
                (*relation >= relations).then_some(RELATION_NOT_BELOW_COUNT)
            }
            Query::Pair { left, right, .. } => {
                let of_left = left.leftmost_fault(relations);
                of_left.or_else(|| right.leftmost_fault(relations))
            }
            Query::WithSet { list, operand, .. } => {
                fault_in(list).or_else(|| operand.leftmost_fault(relations))
            }
            Query::Renaming { old, new, operand } => {
                fault_in(&[*old, *new]).or_else(|| operand.leftmost_fault(relations))
            }
            Query::ProjectingOut { old, operand } => {
                fault_in(&[*old]).or_else(|| operand.leftmost_fault(relations))
            }
        }
    }

    /// Adds the bytes of each node, operands first, and gives the number of the query's own.
    fn add_nodes(&self, nodes: &mut Vec<Vec<u8>>) -> u8 {
        let node = match self {
            Query::Relation { relation } => vec![RELATION_MAP, *relation],
            Query::Pair { sign, left, right } => {
                let (left, right) = (left.add_nodes(nodes), right.add_nodes(nodes));
                vec![PAIR_MAP, left, right, code(*sign)]
            }
            Query::WithSet {
                letter,
                list,
                operand,
            } => {
                let set: u16 = list.iter().map(|&attribute| 1 << attribute).sum();
                let (operand, [low, high]) = (operand.add_nodes(nodes), set.to_le_bytes());
                vec![SET_MAP, operand, code(*letter), low, high]
            }
            Query::Renaming { old, new, operand } => {
                vec![RENAMING_MAP, operand.add_nodes(nodes), *old, *new]
            }
            Query::ProjectingOut { old, operand } => {
                vec![PROJECTING_OUT_MAP, operand.add_nodes(nodes), *old]
            }
        };
        nodes.push(node);
        nodes.len() as u8 - 1
    }

    /// The expression file; all numbers are in their ranges.
    pub fn file(&self, relations: u8) -> Vec<u8> {
        let mut nodes = Vec::new();
        self.add_nodes(&mut nodes);
        let file = [vec![relations, nodes.len() as u8], nodes.concat()].concat();
        assert!(file.len() <= FILE_LENGTH);
        file
    }

    /// What parsing gives to the text, with a slice that is long enough.
    pub fn answer(&self, relations: u8) -> Result<Vec<u8>, u8> {
        if relations == 0 || relations > 8 {
            return Err(RELATION_COUNT_OUTSIDE_RANGE);
        }
        if self.text().len() > LONGEST_TEXT {
            return Err(TEXT_TOO_LONG);
        }
        if self.node_count() > 64 {
            return Err(TOO_MANY_NODES);
        }
        match self.leftmost_fault(relations) {
            Some(refusal) => Err(refusal),
            None => Ok(self.file(relations)),
        }
    }
}
