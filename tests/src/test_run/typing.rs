//! Typing with result slices of several lengths.

use super::TestRun;
use crate::examples::node_numbers;
use crate::reference::{encode_schema, read_file, Type, Typing, OUTPUT_LENGTH};

/// The lengths of result slices.
const OUT_LENGTHS: [usize; 5] = [OUTPUT_LENGTH, OUTPUT_LENGTH + 1, 600, OUTPUT_LENGTH - 1, 0];

/// Those that are long enough.
const LONG_ENOUGH: [usize; 3] = [OUTPUT_LENGTH, OUTPUT_LENGTH + 1, 600];

/// The node numbers of interest.
fn numbers(file: &[u8]) -> Vec<usize> {
    node_numbers(file, read_file(file).as_ref().ok())
}

impl TestRun {
    /// Compares Typing with a result slice that is long enough.
    pub fn typing_by_schema(&mut self, file: &[u8], node: usize, schema: &[u8]) -> Typing {
        let out_length = LONG_ENOUGH[self.random().below(LONG_ENOUGH.len())];
        self.typing(file, node, schema, out_length)
    }

    /// Compares Typing of the node under these sets.
    pub fn typing_by_sets(&mut self, file: &[u8], node: usize, sets: &[Type]) -> Typing {
        self.typing_by_schema(file, node, &encode_schema(sets))
    }

    /// Compares Typing for the node numbers of interest: with a result slice that is
    /// exactly long enough, and with any.
    pub fn typing_for_numbers(&mut self, file: &[u8], schema: &[u8]) {
        for node in numbers(file) {
            self.typing(file, node, schema, OUTPUT_LENGTH);
            let out_length = OUT_LENGTHS[self.random().below(OUT_LENGTHS.len())];
            self.typing(file, node, schema, out_length);
        }
    }

    /// Compares Typing for the node numbers of interest with each length of the result
    /// slice.
    pub fn typing_with_every_length(&mut self, file: &[u8], schema: &[u8]) {
        for node in numbers(file) {
            for out_length in OUT_LENGTHS {
                self.typing(file, node, schema, out_length);
            }
        }
    }
}
