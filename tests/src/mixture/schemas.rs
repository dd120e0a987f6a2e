//! Schemas.

use super::files::{damage, length};
use crate::extreme_inputs::extreme_assignments;
use crate::input::Input;
use crate::pseudorandom::Random;
use crate::random_instantiations::MOST_IN_DISTURBED;
use crate::reference::{encode_schema, type_variables, Type};

/// The image of an instantiation of the node's formula; of a refused file some sets.
fn image(random: &mut Random, input: &Input, node: usize) -> Vec<Type> {
    let Ok(all) = &input.inferred else {
        return vec![Type::new(); usize::from(random.between(1, 8))];
    };
    let formula = &all.formulas[node];
    if type_variables(formula).len() == 255 && random.below(4) == 0 {
        return random.instantiation_near_255(formula).image(8);
    }
    let ordinary = random.ordinary_count(MOST_IN_DISTURBED);
    random.image(formula, all.file.relations, ordinary)
}

/// Eight records at the limits.
fn extreme(random: &mut Random) -> Vec<u8> {
    let assignments = extreme_assignments();
    encode_schema(&assignments[random.below(assignments.len())])
}

/// Bytes that no instantiation was made for.
fn unrelated(random: &mut Random, relations: u8) -> Vec<u8> {
    let length = length(random);
    match random.below(3) {
        0 => random.bytes(length),
        1 => random.likely_bytes(length),
        _ => random.records_of_maps(relations),
    }
}

/// A schema for the node: one that types it, one near such a one, one with an empty record, a
/// damaged, truncated or extended one, or other bytes.
pub fn schema(random: &mut Random, input: &Input, node: usize) -> Vec<u8> {
    let kind = random.below(32);
    let relations = input.bytes.first().map_or(1, |&count| count.clamp(1, 8));
    match kind {
        0 if relations == 8 => return extreme(random),
        0..=2 => return unrelated(random, relations),
        _ => {}
    }
    let mut sets = image(random, input, node);
    if (3..16).contains(&kind) {
        for _ in 0..random.between(1, 4) {
            random.disturb_assignment(&mut sets);
        }
    }
    if kind == 22 {
        let relation = random.below(sets.len());
        sets[relation].clear();
    }
    let mut bytes = encode_schema(&sets);
    damage(random, kind, &mut bytes);
    bytes
}
