//! One call of an operation by the engine and by the reference: answers, numbers written
//! and every byte of every lent slice are compared.

mod edits;
mod files;
mod formulas;
mod instantiations;
mod queries;
mod typing;

use std::fmt::Debug;

use crate::examples::to_hexadecimal;
use crate::lent::Lent;
use crate::pseudorandom::Random;

/// What differs, and for which call.
pub type Difference = String;

/// The length of the bytes that fill lent slices, above twice that of any slice.
const NOISE_LENGTH: usize = 200_000;

/// The slices that calls lend.
pub struct PairedCalls {
    random: Random,
    noise: Vec<u8>,
    work: Lent,
    schema: Lent,
    out: Lent,
    instantiation: Lent,
    file: Lent,
}

impl PairedCalls {
    /// Slices and numbers before a call are random, by this seed.
    pub fn new(seed: u64) -> Self {
        let mut random = Random::new(seed);
        let noise = random.bytes(NOISE_LENGTH);
        PairedCalls {
            random,
            noise,
            work: Lent::default(),
            schema: Lent::default(),
            out: Lent::default(),
            instantiation: Lent::default(),
            file: Lent::default(),
        }
    }

    /// The generator of what slices and numbers are before a call.
    pub fn random(&mut self) -> &mut Random {
        &mut self.random
    }
}

/// Fills each slice and gives it its length.
fn prepare<const COUNT: usize>(
    (random, noise): (&mut Random, &[u8]),
    slices: [&mut Lent; COUNT],
    lengths: [usize; COUNT],
) {
    for (lent, length) in slices.into_iter().zip(lengths) {
        lent.prepare(random, noise, length);
    }
}

/// An input of a call: its name, the bytes before the call, and the bytes after it.
type Kept<'a> = (&'static str, &'a [u8], &'a [u8]);

/// What a call of both left.
struct Outcome<'a, Numbers> {
    /// The answer and the numbers written by the engine, and those by the reference.
    given: Numbers,
    wanted: Numbers,
    /// The inputs, which stay.
    inputs: &'a [Kept<'a>],
    /// The slices lent, by name.
    slices: &'a [(&'static str, &'a Lent)],
}

impl<Numbers: PartialEq + Debug> Outcome<'_, Numbers> {
    /// What differs, if anything does.
    fn difference(&self) -> Option<String> {
        let (given, wanted) = (&self.given, &self.wanted);
        if given != wanted {
            return Some(format!("engine {given:?}, reference {wanted:?}"));
        }
        for (name, lent) in self.slices {
            if let Some(difference) = lent.difference() {
                let length = lent.length();
                return Some(format!("{name} of {length} bytes, {difference}"));
            }
        }
        let changed = self
            .inputs
            .iter()
            .find(|(_, before, after)| before != after);
        changed.map(|(name, _, _)| format!("the {name} changed"))
    }

    /// Nothing, or what differs, with the call and its inputs.
    fn check(&self, call: impl FnOnce() -> String) -> Result<(), Difference> {
        let Some(difference) = self.difference() else {
            return Ok(());
        };
        let mut text = format!("{}: {difference}", call());
        for (name, before, _) in self.inputs {
            text += &format!("\n{name} {}", to_hexadecimal(before));
        }
        Err(text)
    }
}
