//! Formula and Verdict with slices of several lengths.

use super::TestRun;
use crate::input::Input;
use crate::reference::{FORMULA_LENGTH, SCHEMA_LENGTH};

/// A length above that of any work space that is needed.
pub const FAR_TOO_LONG: usize = 64 * FORMULA_LENGTH + 4_321;

/// The lengths of schema slices.
const SCHEMA_LENGTHS: [usize; 5] = [
    SCHEMA_LENGTH,
    SCHEMA_LENGTH - 1,
    0,
    SCHEMA_LENGTH + 1,
    2 * SCHEMA_LENGTH,
];

/// Lengths of work space: exactly long enough, one byte short, one too long, far too long,
/// empty.
fn work_lengths(input: &Input) -> [usize; 5] {
    let exact = input.work_length();
    [exact, exact.saturating_sub(1), exact + 1, FAR_TOO_LONG, 0]
}

impl TestRun {
    /// Compares Formula with each length of the work space, and Verdict for the node
    /// numbers of interest: with slices that are exactly long enough, and with any.
    pub fn formula_and_verdict(&mut self, bytes: &[u8]) {
        let input = Input::new(bytes.to_vec());
        let work_lengths = work_lengths(&input);
        for length in work_lengths {
            self.formula(&input, length);
        }
        for node in input.node_numbers() {
            self.verdict(&input, node, [input.work_length(), SCHEMA_LENGTH]);
            let lengths = [work_lengths, SCHEMA_LENGTHS].map(|all| all[self.random().below(5)]);
            self.verdict(&input, node, lengths);
        }
    }

    /// Compares Formula, and Verdict for each node, with slices exactly long enough.
    pub fn verdict_of_every_node(&mut self, bytes: &[u8]) {
        let input = Input::new(bytes.to_vec());
        let work_length = input.work_length();
        assert_eq!(self.formula(&input, work_length), 0);
        for node in 0..usize::from(bytes[1]) {
            self.verdict(&input, node, [work_length, SCHEMA_LENGTH]);
        }
    }

    /// Compares Formula with each length, and Verdict for the node numbers of interest
    /// with each pair of lengths.
    pub fn formula_and_verdict_with_every_length(&mut self, bytes: &[u8]) {
        let input = Input::new(bytes.to_vec());
        for work_length in work_lengths(&input) {
            self.formula(&input, work_length);
            for node in input.node_numbers() {
                for schema_length in SCHEMA_LENGTHS {
                    self.verdict(&input, node, [work_length, schema_length]);
                }
            }
        }
    }
}
