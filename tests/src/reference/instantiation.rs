//! Instantiations, written plainly from document 01.

use std::collections::BTreeMap;

use super::formula::{bit, set_bit};
use super::schema::{encode_list, ordinary_attributes, Reader, LOWEST_ORDINARY, MOST_ORDINARY};
use super::{
    assignment_of, holders, is_allowed, is_output, type_variables, Formula, Type,
    ATTRIBUTE_IN_TWO_LISTS, STANDING_BIT_NO_TYPE_VARIABLE, SUBSET_NOT_ALLOWED,
    TOO_MANY_ORDINARY_ATTRIBUTES,
};

/// The special attributes, which have a byte each.
const SPECIAL: usize = 15;
/// The bytes of the bit map over s.
const MAP_LENGTH: usize = 32;
/// The bytes before the lists.
pub const LISTS_START: usize = SPECIAL + MAP_LENGTH;

/// An instantiation, of any formula or none.
#[derive(Clone, Debug, Default, PartialEq, Eq)]
pub struct Instantiation {
    /// The subset given to each of attributes 1 to 15, in that order.
    pub subsets: [u8; SPECIAL],
    /// The list of each s whose bit stands.
    pub lists: BTreeMap<usize, Type>,
}

impl Instantiation {
    /// The instantiation whose image is the assignment.
    pub fn with_image(assignment: &[Type]) -> Self {
        let mut instantiation = Instantiation::default();
        for (attribute, subset) in (1..).zip(&mut instantiation.subsets) {
            *subset = holders(assignment, attribute) as u8;
        }
        for attribute in ordinary_attributes(assignment) {
            instantiation.insert(holders(assignment, attribute), attribute);
        }
        instantiation
    }

    /// Puts the attribute in the list of s.
    pub fn insert(&mut self, s: usize, attribute: u32) {
        self.lists.entry(s).or_default().insert(attribute);
    }

    /// The special attributes, each with its subset.
    fn special(&self) -> impl Iterator<Item = (u32, usize)> + '_ {
        (1..).zip(self.subsets.map(usize::from))
    }

    /// The ordinary attributes, each with the subset whose list has it.
    fn listed(&self) -> impl Iterator<Item = (u32, usize)> + '_ {
        let lists = self.lists.iter();
        lists.flat_map(|(&s, list)| list.iter().map(move |&attribute| (attribute, s)))
    }

    /// The first refusal for the formula, 20 for all bits or 21, if there is one.
    pub fn check(&self, formula: &Formula) -> Result<(), u8> {
        let variables = type_variables(formula);
        if !self.lists.keys().all(|s| variables.contains(s)) {
            return Err(STANDING_BIT_NO_TYPE_VARIABLE);
        }
        let is_allowed = |(attribute, s)| is_allowed(formula, attribute as usize, s);
        if !self.special().all(is_allowed) {
            return Err(SUBSET_NOT_ALLOWED);
        }
        Ok(())
    }

    /// The image: each relation holds the attributes whose subset contains it.
    pub fn image(&self, relations: u8) -> Vec<Type> {
        assignment_of(relations, self.special().chain(self.listed()))
    }

    /// The output: the attributes whose output bit stands in the formula.
    pub fn output(&self, formula: &Formula) -> Type {
        let column_of = |attribute| match attribute {
            LOWEST_ORDINARY.. => 0,
            special => special as usize,
        };
        let all = self.special().chain(self.listed());
        all.filter(|&(attribute, s)| is_output(formula, column_of(attribute), s))
            .map(|(attribute, _)| attribute)
            .collect()
    }
}

/// Reads an instantiation, or gives the first refusal: 14 to 16 as the bytes come, then
/// 17, 19 and 18.
pub fn read_instantiation(bytes: &[u8]) -> Result<Instantiation, u8> {
    let mut reader = Reader::new(bytes);
    let mut instantiation = Instantiation::default();
    instantiation.subsets.copy_from_slice(reader.take(SPECIAL)?);
    let map = reader.take(MAP_LENGTH)?;
    for s in (0..256).filter(|&s| bit(map, s)) {
        let list = reader.list()?.into_iter().collect();
        instantiation.lists.insert(s, list);
    }
    reader.end()?;
    let listed: Vec<u32> = instantiation
        .listed()
        .map(|(attribute, _)| attribute)
        .collect();
    let different: Type = listed.iter().copied().collect();
    if different.len() < listed.len() {
        return Err(ATTRIBUTE_IN_TWO_LISTS);
    }
    if different.len() > MOST_ORDINARY {
        return Err(TOO_MANY_ORDINARY_ATTRIBUTES);
    }
    Ok(instantiation)
}

/// The bytes of an instantiation; each list has at most 255 attributes, each at most
/// 65,535.
pub fn encode_instantiation(instantiation: &Instantiation) -> Vec<u8> {
    let mut map = [0; MAP_LENGTH];
    for &s in instantiation.lists.keys() {
        set_bit(&mut map, s);
    }
    let mut bytes = [&instantiation.subsets[..], &map].concat();
    bytes.extend(instantiation.lists.values().flat_map(encode_list));
    bytes
}
