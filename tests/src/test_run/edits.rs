//! Edit and Preview with slices of several lengths.

use super::TestRun;
use crate::answer::Answer;
use crate::examples::node_numbers;
use crate::reference::{read_file, FILE_LENGTH};
use crate::slice_lengths::{around, work_length};

impl TestRun {
    /// Compares Edit and Preview with slices that are long enough. Asserts that both refuse the
    /// same, or neither. Gives Preview's answer.
    pub fn exchange(&mut self, file: &[u8], node: usize, record: &[u8]) -> u8 {
        let length = self.random().enough(FILE_LENGTH);
        let edited = self.edit(file, node, record, length).number();
        let length = self.random().enough(work_length(file));
        let previewed = self.preview(file, node, record, length).number();
        assert!(previewed == edited || (previewed == 255 && edited == 0));
        previewed
    }

    /// Compares both for the node numbers of interest, with slices of lengths near the least.
    pub fn exchange_for_numbers(&mut self, file: &[u8], record: &[u8]) {
        for node in node_numbers(file, read_file(file).as_ref().ok()) {
            let length = self.random().near(FILE_LENGTH);
            self.edit(file, node, record, length);
            let length = self.random().near(work_length(file));
            self.preview(file, node, record, length);
        }
    }

    /// Compares both with every length of interest of the slice.
    pub fn exchange_with_every_length(&mut self, file: &[u8], node: usize, record: &[u8]) {
        for length in around(FILE_LENGTH) {
            self.edit(file, node, record, length);
        }
        for length in around(work_length(file)) {
            self.preview(file, node, record, length);
        }
    }
}
