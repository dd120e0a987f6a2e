//! The operation Verdict, written plainly from documents 01 and 02.

use super::schema::LOWEST_ORDINARY;
use super::{
    allowed_subsets, assignment_of, best_cover, can_be_filled, encode_schema, infer, Formula,
    Inferred, COLUMNS,
};

/// The least length of a slice for a schema.
pub const SCHEMA_LENGTH: usize = 4_104;

/// The attribute where the relations cannot all be filled.
const NOT_FILLED: u8 = 0;

/// An answer of Verdict.
#[derive(Clone, Copy, Debug, PartialEq, Eq)]
pub enum Verdict {
    /// The witness schema is written; its length, and how many memberships it has.
    Typable { length: usize, memberships: u8 },
    /// The lowest special attribute whose column allows nothing, or 0 where the relations cannot
    /// all be filled.
    Untypable { attribute: u8 },
    /// The first refusal.
    Refused { number: u8 },
}

/// The lowest special attribute whose column allows nothing, if there is one.
pub fn blocked_attribute(formula: &Formula) -> Option<u8> {
    (1..COLUMNS)
        .find(|&column| allowed_subsets(formula, column).is_empty())
        .map(|column| column as u8)
}

/// The attribute with which the node is untypable, if it is.
pub fn untypable_attribute(formula: &Formula, relations: u8) -> Option<u8> {
    let not_filled = || (!can_be_filled(formula, relations)).then_some(NOT_FILLED);
    blocked_attribute(formula).or_else(not_filled)
}

/// The schema of the best cover and the number of its memberships, if there is one: each special
/// attribute in the relations of its subset, and ordinary ones from 16 on in those of the variables.
pub fn witness(formula: &Formula, relations: u8) -> Option<(Vec<u8>, u8)> {
    let cover = best_cover(formula, relations)?;
    let special = (1..).zip(cover.subsets.map(usize::from));
    let ordinary = (LOWEST_ORDINARY..).zip(cover.variables);
    let assignment = assignment_of(relations, special.chain(ordinary));
    Some((encode_schema(&assignment), cover.memberships as u8))
}

impl Inferred {
    /// Verdict of this file.
    pub fn verdict(&self, node: usize, work: &mut [u8], schema: &mut [u8]) -> Verdict {
        if let Err(number) = self.check(node, work, &[(schema, SCHEMA_LENGTH)]) {
            return Verdict::Refused { number };
        }
        self.fill(work);
        let formula = &self.formulas[node];
        if let Some(attribute) = blocked_attribute(formula) {
            return Verdict::Untypable { attribute };
        }
        let Some((witness, memberships)) = witness(formula, self.file.relations) else {
            let attribute = NOT_FILLED;
            return Verdict::Untypable { attribute };
        };
        let length = witness.len();
        schema[..length].copy_from_slice(&witness);
        Verdict::Typable {
            length,
            memberships,
        }
    }
}

/// Verdict: unless refused, fills the work space as Formula does. Writes the witness if the node is
/// typable; else the schema slice stays.
pub fn verdict(bytes: &[u8], node: usize, work: &mut [u8], schema: &mut [u8]) -> Verdict {
    match infer(bytes) {
        Ok(inferred) => inferred.verdict(node, work, schema),
        Err(number) => Verdict::Refused { number },
    }
}
