//! The operation Edit, written plainly from FORMAT 1.8, 7.27 and 8.9: the file is taken apart into
//! its nodes, one of them is exchanged, and they are put together again.

use super::{
    encode_file, read_file, read_node, File, Node, BYTES_AFTER_LAST_NODE, EDIT_SLICE_TOO_SHORT,
    FILE_LENGTH, NODE_NOT_BELOW_COUNT,
};

/// An answer of Edit.
#[derive(Clone, Copy, Debug, PartialEq, Eq)]
pub enum Edit {
    /// The edited file is written; its length.
    Edited { length: usize },
    /// The first refusal.
    Refused { number: u8 },
}

/// The node that is the whole of a record, as node of this number, or the first refusal: one of 4
/// to 9, and then 10.
fn whole_node(relations: u8, number: usize, record: &[u8]) -> Result<Node, u8> {
    let (node, length) = read_node(relations, number as u8, record)?;
    if length < record.len() {
        return Err(BYTES_AFTER_LAST_NODE);
    }
    Ok(node)
}

impl File {
    /// Tests that the node is one of this file.
    pub(super) fn check_node(&self, node: usize) -> Result<(), u8> {
        if node >= self.nodes.len() {
            return Err(NODE_NOT_BELOW_COUNT);
        }
        Ok(())
    }

    /// The bytes of this file with one of its nodes exchanged for that of the record, or the first
    /// refusal of the record.
    pub(super) fn exchange(&self, node: usize, record: &[u8]) -> Result<Vec<u8>, u8> {
        let mut nodes = self.nodes.clone();
        nodes[node] = whole_node(self.relations, node, record)?;
        Ok(encode_file(self.relations, &nodes))
    }
}

/// The edited file, or the first refusal.
fn edited(bytes: &[u8], node: usize, record: &[u8], result_length: usize) -> Result<Vec<u8>, u8> {
    let file = read_file(bytes)?;
    file.check_node(node)?;
    if result_length < FILE_LENGTH {
        return Err(EDIT_SLICE_TOO_SHORT);
    }
    file.exchange(node, record)
}

/// Edit: writes the edited file; with a refusal the result slice stays.
pub fn edit(bytes: &[u8], node: usize, record: &[u8], result: &mut [u8]) -> Edit {
    match edited(bytes, node, record, result.len()) {
        Ok(written) => {
            let length = written.len();
            result[..length].copy_from_slice(&written);
            Edit::Edited { length }
        }
        Err(number) => Edit::Refused { number },
    }
}
