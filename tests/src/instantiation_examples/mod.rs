//! Calls of Apply and Recover with their answers: examples, edges and orders of documents 01
//! and 02.

mod faults;
mod instances;
mod recover;
mod refused;

use std::ops::Range;

use crate::formula_examples::formula_examples;
use crate::reference::{FORMULA_LENGTH, OUTPUT_LENGTH, SCHEMA_LENGTH};
use crate::typing_examples::Answer;

pub use faults::with_faults;
pub use instances::{instances, Instance, E3_INSTANTIATION, FILLED_INSTANTIATION};
pub use recover::recover_cases;

/// A call of Apply with its answer: schema and output record, or the first refusal.
pub struct ApplyCase {
    pub name: String,
    pub file: Vec<u8>,
    pub node: usize,
    pub instantiation: Vec<u8>,
    /// The lengths of work space, schema and result slice.
    pub lengths: [usize; 3],
    pub answer: Result<(Vec<u8>, Vec<u8>), u8>,
}

/// A call of Recover with its answer: the instantiation, none if untyped, or the first
/// refusal.
pub struct RecoverCase {
    pub name: String,
    pub file: Vec<u8>,
    pub node: usize,
    pub schema: Vec<u8>,
    /// The lengths of work space and result slice.
    pub lengths: [usize; 2],
    pub answer: Answer<Vec<u8>>,
}

/// Special attributes with their subsets.
type Subsets = &'static [(usize, u8)];
/// Subsets with the attributes in their lists.
type Lists = &'static [(usize, &'static [u16])];

/// The bytes with these subsets, empty for other special attributes, and these lists,
/// rising by subset. A list is written as it is, whatever it has.
pub fn instantiation_bytes(
    subsets: &[(usize, u8)],
    lists: &[(usize, impl AsRef<[u16]>)],
) -> Vec<u8> {
    let mut bytes = vec![0; 47];
    for &(attribute, s) in subsets {
        bytes[attribute - 1] = s;
    }
    for (s, list) in lists {
        bytes[15 + s / 8] |= 1 << (s % 8);
        bytes.push(list.as_ref().len() as u8);
        bytes.extend(list.as_ref().iter().flat_map(|item| item.to_le_bytes()));
    }
    bytes
}

/// The subsets of the schema to which E3 adds.
const FILLED: Subsets = &[(1, 0x01), (2, 0x02), (3, 0x03), (4, 0x04)];
/// The same without attribute 4, so that r2 has an attribute of a list only.
const UNFILLED: Subsets = &[(1, 0x01), (2, 0x02), (3, 0x03)];

/// File and last node of the example of this name.
fn example(name: &str) -> (Vec<u8>, usize) {
    let examples = formula_examples();
    let example = examples.iter().find(|example| example.name == name);
    let example = example.expect("an example");
    (example.bytes(), example.last())
}

/// The list of these attributes.
fn list(attributes: Range<u32>) -> Vec<u16> {
    attributes.map(|attribute| attribute as u16).collect()
}

/// 255 lists of one attribute each, 16 to 270.
fn lists_of_one() -> Vec<(usize, Vec<u16>)> {
    (1..256)
        .map(|s| (s, list(15 + s as u32..16 + s as u32)))
        .collect()
}

/// The length of the work space for the file.
fn work_length(file: &[u8]) -> usize {
    FORMULA_LENGTH * usize::from(file[1])
}

/// All calls of Apply of known answers.
pub fn apply_cases() -> Vec<ApplyCase> {
    let applied = instances().into_iter().map(|instance| ApplyCase {
        name: instance.name.into(),
        lengths: [work_length(&instance.file), SCHEMA_LENGTH, OUTPUT_LENGTH],
        file: instance.file,
        node: instance.node,
        instantiation: instance.instantiation,
        answer: Ok((instance.schema, instance.output)),
    });
    applied
        .chain(refused::refused_for_e1())
        .chain(refused::cut_for_e1())
        .chain(faults::sets_of_faults())
        .chain(faults::faults_in_the_last_list())
        .chain(refused::refused_for_join())
        .chain(refused::refused_for_examples())
        .chain(refused::emptied_for_join())
        .chain(refused::calls_of_apply())
        .collect()
}
