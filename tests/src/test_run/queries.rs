//! Parsing a query with file slices of several lengths.

use super::TestRun;
use crate::answer::Answer;
use crate::reference::FILE_LENGTH;

/// The lengths of file slices: empty, one byte short, exactly long enough, one byte too long,
/// and longer.
pub const FILE_LENGTHS: [usize; 6] = [0, FILE_LENGTH - 1, FILE_LENGTH, FILE_LENGTH + 1, 512, 5_000];

impl TestRun {
    /// Compares parsing with a file slice that is long enough. Gives 0 or the refusal.
    pub fn query(&mut self, relations: u8, text: &[u8]) -> u8 {
        let length = self.random().enough(FILE_LENGTH);
        self.parse_query(relations, text, length).number()
    }

    /// Compares parsing with each length of the file slice.
    pub fn query_with_every_length(&mut self, relations: u8, text: &[u8]) {
        for length in FILE_LENGTHS {
            self.parse_query(relations, text, length);
        }
    }
}
