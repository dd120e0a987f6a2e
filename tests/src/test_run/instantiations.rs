//! Apply and Recover with slices of several lengths.

use super::TestRun;
use crate::input::Input;
use crate::reference::{Apply, Recover, INSTANTIATION_LENGTH, OUTPUT_LENGTH, SCHEMA_LENGTH};
use crate::slice_lengths::{around, least_for_apply, least_for_recover};

impl TestRun {
    /// Compares Apply with slices that are long enough.
    pub fn apply_bytes(&mut self, input: &Input, node: usize, instantiation: &[u8]) -> Apply {
        let lengths = least_for_apply(input).map(|least| self.random().enough(least));
        self.apply(input, node, instantiation, lengths)
    }

    /// Compares Recover with slices that are long enough.
    pub fn recover_bytes(&mut self, input: &Input, node: usize, schema: &[u8]) -> Recover {
        let lengths = least_for_recover(input).map(|least| self.random().enough(least));
        self.recover(input, node, schema, lengths)
    }

    /// Compares Apply for the node numbers of interest, with slices of lengths near the
    /// least.
    pub fn apply_for_numbers(&mut self, input: &Input, instantiation: &[u8]) {
        for node in input.node_numbers() {
            let lengths = least_for_apply(input).map(|least| self.random().near(least));
            self.apply(input, node, instantiation, lengths);
        }
    }

    /// Compares Recover for the node numbers of interest, with slices of lengths near the
    /// least.
    pub fn recover_for_numbers(&mut self, input: &Input, schema: &[u8]) {
        for node in input.node_numbers() {
            let lengths = least_for_recover(input).map(|least| self.random().near(least));
            self.recover(input, node, schema, lengths);
        }
    }

    /// Compares Apply with every length of interest of each slice.
    pub fn apply_with_every_length(&mut self, input: &Input, node: usize, instantiation: &[u8]) {
        for work_length in around(input.work_length()) {
            for schema_length in around(SCHEMA_LENGTH) {
                for out_length in around(OUTPUT_LENGTH) {
                    let lengths = [work_length, schema_length, out_length];
                    self.apply(input, node, instantiation, lengths);
                }
            }
        }
    }

    /// Compares Recover with every length of interest of each slice.
    pub fn recover_with_every_length(&mut self, input: &Input, node: usize, schema: &[u8]) {
        for work_length in around(input.work_length()) {
            for length in around(INSTANTIATION_LENGTH) {
                self.recover(input, node, schema, [work_length, length]);
            }
        }
    }
}
