//! Bytes that grow within an array.

use crate::Refusal;

/// The bytes up to a length in an array that is long enough for all that is put in.
#[derive(Clone, Debug)]
pub struct Buffer<const SIZE: usize> {
    bytes: [u8; SIZE],
    length: usize,
}

impl<const SIZE: usize> Buffer<SIZE> {
    /// These bytes.
    pub fn new(bytes: &[u8]) -> Self {
        let mut buffer = Buffer {
            bytes: [0; SIZE],
            length: 0,
        };
        buffer.insert(0, bytes);
        buffer
    }

    pub fn bytes(&self) -> &[u8] {
        &self.bytes[..self.length]
    }

    pub fn bytes_mut(&mut self) -> &mut [u8] {
        &mut self.bytes[..self.length]
    }

    pub fn length(&self) -> usize {
        self.length
    }

    /// Drops the bytes from a length on.
    pub fn truncate(&mut self, length: usize) {
        self.length = length;
    }

    /// Puts bytes before the one at this place.
    pub fn insert(&mut self, at: usize, bytes: &[u8]) {
        self.bytes.copy_within(at..self.length, at + bytes.len());
        self.bytes[at..at + bytes.len()].copy_from_slice(bytes);
        self.length += bytes.len();
    }

    /// Adds an ordinary attribute to the list whose count byte is at this place. One that is there
    /// already is not added again.
    pub fn insert_listed(&mut self, at: usize, attribute: u16) -> Result<(), Refusal> {
        let count = self.bytes[at];
        let listed = self.bytes[at + 1..]
            .chunks_exact(2)
            .take(usize::from(count));
        let listed = listed.map(|pair| u16::from_le_bytes([pair[0], pair[1]]));
        let lower = listed.clone().take_while(|&each| each < attribute).count();
        if listed.clone().nth(lower) == Some(attribute) {
            return Ok(());
        }
        self.bytes[at] = count.checked_add(1).ok_or(Refusal::TooManyAttributes)?;
        self.insert(at + 1 + 2 * lower, &attribute.to_le_bytes());
        Ok(())
    }
}
