//! Expression files, nodes and node numbers.

use std::rc::Rc;

use crate::examples::{all_nodes_with_set, cases, e1, e10, node_numbers};
use crate::extreme_inputs::{greatest_files, join_input};
use crate::input::Input;
use crate::pseudorandom::Random;
use crate::random_covers::FileKind;
use crate::reference::{encode_node, File, LEGAL_MAPS};

/// Files that are made once.
pub struct Files {
    /// Inputs of known answers at the edges, and extreme files.
    extreme: Vec<Rc<Input>>,
    /// Accepted files of eight relations, all but the first of 64 nodes.
    greatest: Vec<Rc<Input>>,
}

/// m and n: most often small, sometimes any, seldom the greatest.
fn size(random: &mut Random) -> (u8, u8) {
    match random.below(1_000) {
        0..=1 => (8, 64),
        2..=21 => (random.between(1, 8), random.between(1, 64)),
        22..=199 => (random.between(1, 8), random.between(1, 12)),
        _ => (random.between(1, 4), random.between(1, 8)),
    }
}

/// A length of random bytes, most often short.
pub fn length(random: &mut Random) -> usize {
    match random.below(16) {
        0 => random.below(400),
        _ => random.below(48),
    }
}

/// A part of the bytes from their front on.
fn truncate(random: &mut Random, bytes: &mut Vec<u8>) {
    bytes.truncate(random.below(bytes.len() + 1));
}

/// Bytes after the last one; seldom very many.
fn extend(random: &mut Random, bytes: &mut Vec<u8>) {
    let length = match random.below(512) {
        0 => 70_000,
        1..=31 => 1 + random.below(600),
        _ => 1 + random.below(6),
    };
    bytes.extend(random.likely_bytes(length));
}

/// Of 32 kinds of schemas and instantiations, truncates one, extends one, disturbs four,
/// and leaves the others.
pub fn damage(random: &mut Random, kind: usize, bytes: &mut Vec<u8>) {
    match kind {
        16 => truncate(random, bytes),
        17 => extend(random, bytes),
        18..=21 => random.disturb_often(bytes),
        _ => {}
    }
}

/// A file of this size that is damaged, truncated, extended or of random bytes.
fn damaged(random: &mut Random, (relations, count): (u8, u8)) -> Vec<u8> {
    let mut bytes = random.likely_file(relations, count);
    let length = length(random);
    match random.below(12) {
        0 => return random.bytes(length),
        1 => return random.likely_bytes(length),
        2 => bytes = [vec![relations, count], random.likely_bytes(length)].concat(),
        3 => {
            bytes[1] = random.between(count, 64);
            bytes.extend(random.likely_bytes(length));
        }
        4 => truncate(random, &mut bytes),
        5 => extend(random, &mut bytes),
        6 => bytes[0] = random.between(0, 9),
        7 => {
            let place = random.below(bytes.len());
            bytes[place] ^= 1 << random.below(8);
        }
        _ => random.disturb_often(&mut bytes),
    }
    bytes
}

/// A tree of any number of relations.
fn tree(random: &mut Random) -> Vec<u8> {
    let relations = random.between(1, 8);
    random.tree_file(relations)
}

/// A file by how its relations are filled.
fn of_some_kind(random: &mut Random) -> Vec<u8> {
    let kind = FileKind::ALL[random.below(FileKind::ALL.len())];
    let relations = random.between(1, 8);
    random.file_of_kind(kind, relations)
}

/// Any m and n for a node: in their ranges, or any bytes.
fn counts(random: &mut Random) -> (u8, u8) {
    match random.below(2) {
        0 => (random.between(1, 8), random.between(0, 63)),
        _ => (random.byte(), random.byte()),
    }
}

/// Bytes to read a node from, as node of this number in a file of so many relations.
pub fn node_bytes(random: &mut Random, relations: u8, number: u8) -> Vec<u8> {
    let length = random.below(12);
    match random.below(8) {
        0 => random.bytes(length),
        1 => random.likely_bytes(length),
        2..=3 => {
            let map = LEGAL_MAPS[random.below(LEGAL_MAPS.len())];
            [vec![map], random.likely_bytes(length)].concat()
        }
        kind => {
            let (relations, number) = (relations.clamp(1, 8), number.min(63));
            let mut bytes = encode_node(&random.node(relations, number));
            match kind {
                4 => truncate(random, &mut bytes),
                5 => extend(random, &mut bytes),
                6 => random.disturb(&mut bytes),
                _ => {}
            }
            bytes
        }
    }
}

/// Relation count, node number and bytes to read a node from.
pub fn node(random: &mut Random) -> (u8, u8, Vec<u8>) {
    let (relations, number) = counts(random);
    let bytes = node_bytes(random, relations, number);
    (relations, number, bytes)
}

/// A node number: most often below the n stated, else one of interest.
pub fn any_node(random: &mut Random, bytes: &[u8], accepted: Option<&File>) -> usize {
    let stated = usize::from(bytes.get(1).copied().unwrap_or(0)).max(1);
    match random.below(8) {
        0 => {
            let numbers = node_numbers(bytes, accepted);
            numbers[random.below(numbers.len())]
        }
        _ => random.below(stated),
    }
}

/// The same for a file with what the reference makes of it.
pub fn any_node_of(random: &mut Random, input: &Input) -> usize {
    let accepted = input.inferred.as_ref().ok();
    any_node(random, &input.bytes, accepted.map(|all| &all.file))
}

/// A node of an accepted file, often one that few subsets type; 0 of a refused file.
pub fn likely_node(random: &mut Random, input: &Input) -> usize {
    match &input.inferred {
        Ok(all) if random.below(2) == 0 => random.likely_node(&all.formulas),
        Ok(all) => random.below(all.formulas.len()),
        Err(_) => 0,
    }
}

fn inputs(files: impl IntoIterator<Item = Vec<u8>>) -> Vec<Rc<Input>> {
    let files = files.into_iter();
    files.map(|bytes| Rc::new(Input::new(bytes))).collect()
}

fn one_of(random: &mut Random, inputs: &[Rc<Input>]) -> Rc<Input> {
    inputs[random.below(inputs.len())].clone()
}

impl Files {
    pub fn new() -> Self {
        let others = [e1().bytes, e10().bytes, all_nodes_with_set()];
        let known = cases().into_iter().map(|case| case.bytes);
        let mut greatest = vec![Rc::new(join_input())];
        greatest.extend(inputs(greatest_files()));
        Files {
            extreme: inputs(known.chain(others)),
            greatest,
        }
    }

    /// The bytes of a file, where m and n do not count for the time of a comparison.
    pub fn bytes(&self, random: &mut Random) -> Vec<u8> {
        let size = match random.below(4) {
            0 => (random.between(1, 8), random.between(1, 64)),
            _ => size(random),
        };
        match random.below(16) {
            0 => one_of(random, &self.extreme).bytes.clone(),
            1 => one_of(random, &self.greatest).bytes.clone(),
            2..=9 => damaged(random, size),
            _ => random.likely_file(size.0, size.1),
        }
    }

    /// The bytes of a file to edit, most often accepted.
    pub fn to_edit(&self, random: &mut Random) -> Vec<u8> {
        let size = size(random);
        match random.below(64) {
            0 => one_of(random, &self.greatest).bytes.clone(),
            1..=3 => one_of(random, &self.extreme).bytes.clone(),
            4..=11 => damaged(random, size),
            12..=15 => tree(random),
            16..=23 => of_some_kind(random),
            _ => random.likely_file(size.0, size.1),
        }
    }

    /// A file, as often accepted as not.
    pub fn input(&self, random: &mut Random) -> Rc<Input> {
        let size = size(random);
        match random.below(64) {
            0 => one_of(random, &self.greatest),
            1..=3 => one_of(random, &self.extreme),
            4..=31 => Rc::new(Input::new(damaged(random, size))),
            32..=35 => Rc::new(Input::new(tree(random))),
            36..=43 => Rc::new(Input::new(of_some_kind(random))),
            _ => Rc::new(Input::new(random.likely_file(size.0, size.1))),
        }
    }

    /// A file, most often accepted.
    pub fn likely_input(&self, random: &mut Random) -> Rc<Input> {
        match random.below(8) {
            0 => self.input(random),
            1 if random.below(8) == 0 => one_of(random, &self.greatest),
            _ => {
                let (relations, count) = size(random);
                Rc::new(Input::new(random.likely_file(relations, count)))
            }
        }
    }
}
