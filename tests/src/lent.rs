//! Slices to lend to the engine.

use std::ops::Range;

use crate::pseudorandom::Random;

/// The bytes after each lent slice that must stay too.
const AFTER: usize = 64;

/// A slice to lend, within a buffer that is filled before; the same bytes again for
/// the reference.
#[derive(Default)]
pub struct Lent {
    engine: Vec<u8>,
    reference: Vec<u8>,
    place: Range<usize>,
}

impl Lent {
    /// Fills the buffers with noise, sometimes with zeros or ones, and places a slice
    /// of this length at any alignment.
    pub fn prepare(&mut self, random: &mut Random, noise: &[u8], length: usize) {
        let before = random.below(16);
        let whole = before + length + AFTER;
        self.place = before..before + length;
        self.engine.clear();
        match random.below(8) {
            0 => self.engine.resize(whole, 0),
            1 => self.engine.resize(whole, 0xff),
            _ => {
                let start = random.below(noise.len() - whole);
                self.engine.extend_from_slice(&noise[start..start + whole]);
            }
        }
        self.reference.clone_from(&self.engine);
    }

    /// The length of the slice.
    pub fn length(&self) -> usize {
        self.place.len()
    }

    pub fn for_engine(&mut self) -> &mut [u8] {
        &mut self.engine[self.place.clone()]
    }

    pub fn for_reference(&mut self) -> &mut [u8] {
        &mut self.reference[self.place.clone()]
    }

    /// The first byte that differs, within the slice or around it.
    pub fn difference(&self) -> Option<String> {
        if self.engine == self.reference {
            return None;
        }
        let mut pairs = self.engine.iter().zip(&self.reference);
        let at = pairs.position(|(given, wanted)| given != wanted)?;
        let place = at as isize - self.place.start as isize;
        let (given, wanted) = (self.engine[at], self.reference[at]);
        Some(format!(
            "byte {place}: engine {given:02x}, reference {wanted:02x}"
        ))
    }
}
