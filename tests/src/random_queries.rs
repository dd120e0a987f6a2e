//! Random queries, and texts that are almost queries.

use std::collections::BTreeSet;

use crate::pseudorandom::Random;
use crate::query_trees::{relation, Query};

/// The bytes that queries are written with.
pub const ALPHABET: &[u8; 25] = b"r0123456789()+-*#SPND[],>";

/// How many numbers of a query are outside their ranges.
#[derive(Clone, Copy, Debug, PartialEq, Eq)]
pub enum Faults {
    None,
    /// One number in so many.
    OneIn(usize),
}

impl Random {
    /// Whether the next number is to be outside its range.
    fn is_fault(&mut self, faults: Faults) -> bool {
        match faults {
            Faults::None => false,
            Faults::OneIn(count) => self.below(count) == 0,
        }
    }

    /// The number of a relation, one digit.
    fn relation_digit(&mut self, relations: u8, faults: Faults) -> u8 {
        match self.is_fault(faults) {
            false => self.between(0, relations - 1),
            true => self.between(relations, 9),
        }
    }

    /// An attribute of one or two digits.
    fn written_attribute(&mut self, faults: Faults) -> u8 {
        match self.is_fault(faults) {
            false => self.attribute(),
            true => [0, 16, 17, 20, 99, self.between(16, 99)][self.below(6)],
        }
    }

    /// A rising list; one time in eight empty, one time in eight of up to 15 attributes.
    fn written_list(&mut self, faults: Faults) -> Vec<u8> {
        let count = [0, 1, 1, 1, 2, 2, 3, 24][self.below(8)];
        let list: BTreeSet<u8> = (0..count).map(|_| self.written_attribute(faults)).collect();
        list.into_iter().collect()
    }

    /// A query of so many nodes for 1 to 8 relations.
    pub fn query(&mut self, relations: u8, nodes: usize, faults: Faults) -> Query {
        if nodes == 1 {
            return relation(self.relation_digit(relations, faults));
        }
        if nodes > 2 && self.below(2) == 0 {
            let of_left = 1 + self.below(nodes - 2);
            let left = self.query(relations, of_left, faults);
            let right = self.query(relations, nodes - 1 - of_left, faults);
            return left.pair(['+', '-', '*', '#'][self.below(4)], right);
        }
        let operand = self.query(relations, nodes - 1, faults);
        let (old, new) = (
            self.written_attribute(faults),
            self.written_attribute(faults),
        );
        match self.below(4) {
            0 => operand.with_set('S', self.written_list(faults)),
            1 => operand.with_set('P', self.written_list(faults)),
            2 => operand.renaming(old, new),
            _ => operand.projecting_out(old),
        }
    }

    /// A number of nodes: most often few, sometimes up to 160, sometimes about 64.
    pub fn query_size(&mut self) -> usize {
        match self.below(32) {
            0 => 62 + self.below(5),
            1..=2 => 1 + self.below(160),
            _ => 1 + self.below(10),
        }
    }

    /// A query of any size, with or without faults.
    pub fn any_query(&mut self, relations: u8) -> Query {
        let faults = [Faults::None, Faults::None, Faults::OneIn(60)];
        let (nodes, faults) = (self.query_size(), faults[self.below(3)]);
        self.query(relations, nodes, faults)
    }

    /// A byte that queries are written with; one time in sixteen any byte.
    pub fn text_byte(&mut self) -> u8 {
        match self.below(16) {
            0 => self.byte(),
            _ => ALPHABET[self.below(ALPHABET.len())],
        }
    }

    pub fn text_bytes(&mut self, length: usize) -> Vec<u8> {
        (0..length).map(|_| self.text_byte()).collect()
    }

    /// Changes, deletes, inserts or exchanges bytes, repeats some at the end, or truncates, once.
    pub fn disturb_text(&mut self, text: &mut Vec<u8>) {
        let place = self.below(text.len() + 1);
        let within = place < text.len();
        match self.below(8) {
            0..=1 if within => drop(text.remove(place)),
            2..=3 => text.insert(place, self.text_byte()),
            4 if within => {
                let other = self.below(text.len());
                text.swap(place, other);
            }
            5 => {
                let end = (place + 1 + self.below(6)).min(text.len());
                text.extend_from_within(place..end);
            }
            6 if self.below(4) == 0 => text.truncate(place),
            _ if within => text[place] = self.text_byte(),
            _ => text.push(self.text_byte()),
        }
    }
}
