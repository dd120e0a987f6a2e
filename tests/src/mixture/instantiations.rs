//! Instantiations.

use super::files::{damage, length};
use crate::extreme_inputs::extreme_assignments;
use crate::input::Input;
use crate::instantiation_examples::with_faults;
use crate::pseudorandom::Random;
use crate::random_instantiations::MOST_IN_DISTURBED;
use crate::reference::{encode_instantiation, type_variables, Instantiation};

/// An instantiation of the node's formula; of a refused file an empty one.
fn fitting(random: &mut Random, input: &Input, node: usize) -> Instantiation {
    let Ok(all) = &input.inferred else {
        return Instantiation::default();
    };
    let formula = &all.formulas[node];
    if type_variables(formula).len() == 255 && random.below(4) == 0 {
        return random.instantiation_near_255(formula);
    }
    let ordinary = random.ordinary_count(MOST_IN_DISTURBED);
    random.likely_instantiation(formula, all.file.relations, ordinary)
}

/// That of an assignment to eight relations at the limits.
fn extreme(random: &mut Random) -> Vec<u8> {
    let assignments = extreme_assignments();
    let sets = &assignments[random.below(assignments.len())];
    encode_instantiation(&Instantiation::with_image(sets))
}

/// Two faults of an instantiation of E1, whose subsets fit no other file.
fn faults(random: &mut Random) -> Vec<u8> {
    let faults = [14, 17, 18, 19, 20, 21, 26];
    let two = [0; 2].map(|_| faults[random.below(faults.len())]);
    with_faults(&two, random.below(256))
}

/// Bytes that no formula was read for.
fn unrelated(random: &mut Random) -> Vec<u8> {
    let length = length(random);
    match random.below(4) {
        0 => random.bytes(length),
        1 => random.likely_bytes(47 + length),
        2 => extreme(random),
        _ => faults(random),
    }
}

/// An instantiation for the node: one of its formula, one near such a one, a damaged,
/// truncated or extended one, or other bytes.
pub fn instantiation(random: &mut Random, input: &Input, node: usize) -> Vec<u8> {
    let kind = random.below(32);
    if let (2, Ok(all)) = (kind, &input.inferred) {
        let length = length(random) / 4;
        return random.instantiation_with_likely_lists(&all.formulas[node], length);
    }
    if kind <= 2 {
        return unrelated(random);
    }
    let mut fitting = fitting(random, input, node);
    if kind == 3 {
        random.overfill(&mut fitting);
    }
    if (3..16).contains(&kind) {
        let relations = input.bytes.first().map_or(1, |&count| count.clamp(1, 8));
        for _ in 0..random.between(1, 3) {
            random.disturb_instantiation(relations, &mut fitting);
        }
    }
    let mut bytes = encode_instantiation(&fitting);
    damage(random, kind, &mut bytes);
    bytes
}
