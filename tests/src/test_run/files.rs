//! Accepting a file, and Record.

use super::TestRun;
use crate::examples::node_numbers;

impl TestRun {
    /// Compares accept, and Record for the node numbers of interest. Gives accept's answer.
    pub fn accept_and_record(&mut self, bytes: &[u8]) -> u8 {
        let expected = self.accept(bytes);
        for node in node_numbers(bytes, expected.as_ref().ok()) {
            self.record(bytes, &expected, node);
        }
        expected.err().unwrap_or(0)
    }
}
