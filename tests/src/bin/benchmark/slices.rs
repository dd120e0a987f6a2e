//! The slices that every call uses again.

use type_formula_tests::reference::{
    FILE_LENGTH, FORMULA_LENGTH, INSTANTIATION_LENGTH, OUTPUT_LENGTH, SCHEMA_LENGTH,
};

/// The greatest length of a work space.
const WORK_LENGTH: usize = 64 * FORMULA_LENGTH;
/// The length of all slices together.
const LENGTH: usize =
    WORK_LENGTH + SCHEMA_LENGTH + OUTPUT_LENGTH + INSTANTIATION_LENGTH + FILE_LENGTH;
const PAGE: usize = 4_096;

/// Bytes that begin at a page.
pub struct Paged {
    buffer: Vec<u8>,
    start: usize,
    length: usize,
}

impl Paged {
    pub fn new(length: usize) -> Self {
        let buffer = vec![0x55; length + PAGE];
        let start = buffer.as_ptr().align_offset(PAGE);
        Paged {
            buffer,
            start,
            length,
        }
    }

    pub fn bytes(&self) -> &[u8] {
        &self.buffer[self.start..self.start + self.length]
    }

    pub fn bytes_mut(&mut self) -> &mut [u8] {
        &mut self.buffer[self.start..self.start + self.length]
    }
}

/// The slices and what the last call answered. All calls use the same memory, so that its
/// place favours none of them.
pub struct Slices {
    paged: Paged,
    /// The answer as a number, and the numbers written.
    pub answer: [usize; 3],
}

/// The slices of one call.
pub struct Parts<'a> {
    pub work: &'a mut [u8],
    pub schema: &'a mut [u8],
    pub out: &'a mut [u8],
    pub instantiation: &'a mut [u8],
    pub file: &'a mut [u8],
}

impl Slices {
    pub fn new() -> Self {
        Slices {
            paged: Paged::new(LENGTH),
            answer: [0; 3],
        }
    }

    /// All bytes.
    pub fn bytes(&mut self) -> &mut [u8] {
        self.paged.bytes_mut()
    }

    /// The slices, of which the work space has this length.
    pub fn parts(&mut self, work_length: usize) -> Parts<'_> {
        let (work, rest) = self.bytes().split_at_mut(WORK_LENGTH);
        let (schema, rest) = rest.split_at_mut(SCHEMA_LENGTH);
        let (out, rest) = rest.split_at_mut(OUTPUT_LENGTH);
        let (instantiation, file) = rest.split_at_mut(INSTANTIATION_LENGTH);
        Parts {
            work: &mut work[..work_length],
            schema,
            out,
            instantiation,
            file,
        }
    }
}
