//! Accepting a file, Record, and reading one node.

use super::{Difference, Outcome, PairedCalls};
use crate::engine;
use crate::reference::{self, encode_node, File, NODE_NOT_BELOW_COUNT};

impl PairedCalls {
    /// Compares accept: the answer; m and n written, or both left as they were. Gives the
    /// reference's answer.
    pub fn accept(&mut self, file: &[u8]) -> Result<Result<File, u8>, Difference> {
        let (relations, nodes) = (self.random.byte(), self.random.byte());
        let before = file.to_vec();
        let expected = reference::read_file(file);
        let wanted = match &expected {
            Ok(file) => (0, file.relations, file.nodes.len() as u8),
            Err(refusal) => (*refusal, relations, nodes),
        };
        let (mut written_relations, mut written_nodes) = (relations, nodes);
        let answer = engine::accept(file, &mut written_relations, &mut written_nodes);
        let outcome = Outcome {
            given: (answer, written_relations, written_nodes),
            wanted,
            inputs: &[("file", &before, file)],
            slices: &[],
        };
        outcome.check(|| format!("accept (answer, m, n), before {relations} {nodes}"))?;
        Ok(expected)
    }

    /// Compares Record: start and length, and the part against the node's encoding; the
    /// empty part starts at 0. Gives 0, or which of 1 to 11 applies. `expected` is what
    /// the reference reads in the file.
    pub fn record(
        &mut self,
        file: &[u8],
        expected: &Result<File, u8>,
        node: usize,
    ) -> Result<u8, Difference> {
        let nodes = expected.as_ref().map_or(&[][..], |file| &file.nodes);
        let encoded = nodes.get(node).map_or(Vec::new(), encode_node);
        let part = reference::record(file, node).unwrap_or(0..0);
        let before = (self.random.word() as usize, file.to_vec());
        let mut start = before.0;
        let length = engine::record(file, node, &mut start);
        let end = start.saturating_add(length);
        let outcome = Outcome {
            given: (start, length, file.get(start..end)),
            wanted: (part.start, part.len(), Some(&encoded[..])),
            inputs: &[("file", &before.1, file)],
            slices: &[],
        };
        outcome.check(|| format!("Record of node {node} (start, length, part)"))?;
        let number = match expected {
            Ok(file) if node < file.nodes.len() => 0,
            Ok(_) => NODE_NOT_BELOW_COUNT,
            Err(refusal) => *refusal,
        };
        Ok(number)
    }

    /// Compares reading one node. Gives 0 or the refusal.
    pub fn read_node(&mut self, relations: u8, number: u8, bytes: &[u8]) -> Result<u8, Difference> {
        let mut wanted = [0; 8];
        match reference::read_node(relations, number, bytes) {
            Ok((node, length)) => {
                wanted[1] = length as u8;
                wanted[2..2 + length].copy_from_slice(&encode_node(&node));
            }
            Err(refusal) => wanted[0] = refusal,
        }
        let before = bytes.to_vec();
        let outcome = Outcome {
            given: engine::read_node(relations, number, bytes),
            wanted,
            inputs: &[("bytes", &before, bytes)],
            slices: &[],
        };
        outcome.check(|| format!("read node {number} with {relations} relations"))?;
        Ok(wanted[0])
    }
}
