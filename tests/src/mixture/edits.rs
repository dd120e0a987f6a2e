//! Records for a node of a file.

use super::files::node_bytes;
use crate::pseudorandom::Random;
use crate::reference::{encode_node, read_file};

/// The record of a node of the file, most often of another one; of a refused file none.
fn taken(random: &mut Random, file: &[u8]) -> Vec<u8> {
    let Ok(read) = read_file(file) else {
        return Vec::new();
    };
    let node = random.below(read.nodes.len());
    encode_node(&read.nodes[node])
}

/// A record for the node: one that can stand for it, most often of a typable node; one of a later
/// node or of another one of the file; none; or bytes that are damaged, truncated, extended or any.
pub fn record(random: &mut Random, file: &[u8], node: usize) -> Vec<u8> {
    let relations = file.first().map_or(1, |&count| count.clamp(1, 8));
    let number = node.min(63) as u8;
    match random.below(32) {
        0 => Vec::new(),
        1..=2 => taken(random, file),
        3 => encode_node(&random.node(relations, 63)),
        4..=13 => node_bytes(random, relations, number),
        14..=17 => encode_node(&random.node(relations, number)),
        _ => encode_node(&random.mild_node(relations, number)),
    }
}
