//! The pseudorandom number generator of the tests, and bytes.

use crate::reference::LEGAL_MAPS;

/// The generator splitmix64.
pub struct Random {
    state: u64,
}

impl Random {
    pub fn new(seed: u64) -> Self {
        Random { state: seed }
    }

    /// A generator of its own for the input of this number in a run with this seed.
    pub fn of_input(seed: u64, number: u64) -> Self {
        let first = Random::new(seed).word();
        Random::new(Random::new(first.wrapping_add(number)).word())
    }

    pub fn word(&mut self) -> u64 {
        self.state = self.state.wrapping_add(0x9e37_79b9_7f4a_7c15);
        let mut word = self.state;
        word = (word ^ word >> 30).wrapping_mul(0xbf58_476d_1ce4_e5b9);
        word = (word ^ word >> 27).wrapping_mul(0x94d0_49bb_1331_11eb);
        word ^ word >> 31
    }

    /// A number from 0 to `bound` - 1; the bound is above 0.
    pub fn below(&mut self, bound: usize) -> usize {
        (self.word() % bound as u64) as usize
    }

    /// A number from `low` to `high`, both included.
    pub fn between(&mut self, low: u8, high: u8) -> u8 {
        low + self.below(usize::from(high - low) + 1) as u8
    }

    pub fn byte(&mut self) -> u8 {
        self.word() as u8
    }

    pub fn bytes(&mut self, length: usize) -> Vec<u8> {
        (0..length).map(|_| self.byte()).collect()
    }

    /// A byte that often decides on a refusal: a small number, a legal map or a
    /// count at its limit; one time in four any byte.
    pub fn likely_byte(&mut self) -> u8 {
        match self.below(4) {
            0 => self.byte(),
            1 => LEGAL_MAPS[self.below(LEGAL_MAPS.len())],
            2 => self.between(0, 8),
            _ => [9, 14, 15, 16, 17, 63, 64, 65, 127, 128, 255][self.below(11)],
        }
    }

    pub fn likely_bytes(&mut self, length: usize) -> Vec<u8> {
        (0..length).map(|_| self.likely_byte()).collect()
    }

    /// Changes, deletes or inserts a byte, truncates or appends, once.
    pub fn disturb(&mut self, bytes: &mut Vec<u8>) {
        let place = self.below(bytes.len() + 1);
        let within = place < bytes.len();
        match self.below(8) {
            0 if within => drop(bytes.remove(place)),
            1 => bytes.insert(place, self.likely_byte()),
            2 => bytes.truncate(place),
            3 => {
                let length = 1 + self.below(6);
                bytes.extend(self.likely_bytes(length));
            }
            _ if within => bytes[place] = self.likely_byte(),
            _ => bytes.push(self.likely_byte()),
        }
    }

    /// Disturbs the bytes one to three times.
    pub fn disturb_often(&mut self, bytes: &mut Vec<u8>) {
        for _ in 0..self.between(1, 3) {
            self.disturb(bytes);
        }
    }
}
