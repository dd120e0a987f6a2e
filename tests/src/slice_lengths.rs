//! Lengths of slices around the least.

use crate::input::Input;
use crate::pseudorandom::Random;
use crate::reference::{FORMULA_LENGTH, INSTANTIATION_LENGTH, OUTPUT_LENGTH, SCHEMA_LENGTH};

/// The most bytes above the least length of a slice.
const MOST_ABOVE: usize = 500;

/// Empty, one byte short, exactly long enough, one byte too long.
pub fn around(least: usize) -> [usize; 4] {
    [0, least.saturating_sub(1), least, least + 1]
}

/// The length of the work space for a file: 1,024 for each node stated, at most 64.
pub fn work_length(file: &[u8]) -> usize {
    let stated = file.get(1).copied().unwrap_or(0);
    FORMULA_LENGTH * usize::from(stated.min(64))
}

/// The least lengths of work space, schema and result slice of Apply.
pub fn least_for_apply(input: &Input) -> [usize; 3] {
    [input.work_length(), SCHEMA_LENGTH, OUTPUT_LENGTH]
}

/// The least lengths of work space and result slice of Recover.
pub fn least_for_recover(input: &Input) -> [usize; 2] {
    [input.work_length(), INSTANTIATION_LENGTH]
}

impl Random {
    /// A length that is enough, most often the least.
    pub fn enough(&mut self, least: usize) -> usize {
        match self.below(4) {
            0 => least + self.below(MOST_ABOVE),
            _ => least,
        }
    }

    /// A length near the least, most often enough.
    pub fn near(&mut self, least: usize) -> usize {
        match self.below(4) {
            0 => around(least)[self.below(4)],
            _ => self.enough(least),
        }
    }
}
