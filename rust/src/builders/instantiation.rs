//! Building an instantiation.

use super::buffer::Buffer;
use crate::attributes::LAST_SPECIAL;
use crate::views::{LISTS_START, PLANE_START};
use crate::{Instantiation, Refusal, INSTANTIATION_SIZE};

/// The most ordinary attributes of an instantiation.
const MOST_ORDINARY: usize = 255;

/// Builds an instantiation, from nothing or from one that [`recover`](crate::recover) gave. What is
/// refused leaves the builder as it was. Subsets of the relations are numbers, bit r for relation
/// r; whether a formula allows them is for [`apply`](crate::apply) to say.
///
/// ```
/// use type_formula::{InstantiationBuilder, Refusal};
///
/// let mut builder = InstantiationBuilder::new();
/// builder.give_subset(1, 0b011)?;
/// builder.add_to_list(0b010, 21)?;
/// builder.add_to_list(0b010, 20)?;
/// let instantiation = builder.instantiation();
/// assert_eq!(instantiation.to_string(), "a1: 03\n02: 20, 21\n");
///
/// assert_eq!(builder.add_to_list(0b100, 20), Err(Refusal::RepeatedAttribute));
/// assert_eq!(builder.add_to_list(0b100, 15), Err(Refusal::ListedAttribute));
/// # Ok::<(), Refusal>(())
/// ```
#[derive(Clone, Debug)]
pub struct InstantiationBuilder {
    bytes: Buffer<INSTANTIATION_SIZE>,
}

impl InstantiationBuilder {
    /// Every special attribute has the empty subset, and there is no list.
    pub fn new() -> Self {
        InstantiationBuilder {
            bytes: Buffer::new(&[0; LISTS_START]),
        }
    }

    /// Gives a special attribute its subset. It is [`Attribute`](Refusal::Attribute) if the
    /// attribute is not 1 to 15.
    pub fn give_subset(&mut self, attribute: u8, subset: u8) -> Result<(), Refusal> {
        if !(1..=LAST_SPECIAL).contains(&attribute) {
            return Err(Refusal::Attribute);
        }
        self.bytes.bytes_mut()[usize::from(attribute) - 1] = subset;
        Ok(())
    }

    /// Adds an ordinary attribute to the list of a subset; one that it has already is not added
    /// again. Refusals: 16 for an attribute below 16, 18 where there are 255 attributes, 19 where
    /// another list has it, and 20 for the empty subset.
    pub fn add_to_list(&mut self, subset: u8, attribute: u16) -> Result<(), Refusal> {
        if attribute <= u16::from(LAST_SPECIAL) {
            return Err(Refusal::ListedAttribute);
        }
        if subset == 0 {
            return Err(Refusal::TypeVariable);
        }
        let (lists, mut listed) = (self.instantiation().lists(), 0);
        for (each, mut list) in lists.clone() {
            listed += list.len();
            if list.any(|other| other == attribute) {
                return match each == subset {
                    true => Ok(()),
                    false => Err(Refusal::RepeatedAttribute),
                };
            }
        }
        if listed == MOST_ORDINARY {
            return Err(Refusal::TooManyAttributes);
        }
        let before = lists.take_while(|(each, _)| *each < subset);
        let sizes = before.map(|(_, list)| 1 + 2 * list.len());
        let at = LISTS_START + sizes.sum::<usize>();
        let (place, bit) = (PLANE_START + usize::from(subset / 8), 1 << (subset % 8));
        if self.bytes()[place] & bit == 0 {
            self.bytes.bytes_mut()[place] |= bit;
            self.bytes.insert(at, &[0]);
        }
        self.bytes.insert_listed(at, attribute)
    }

    /// The bytes so far.
    pub fn bytes(&self) -> &[u8] {
        self.bytes.bytes()
    }

    /// The instantiation so far.
    pub fn instantiation(&self) -> Instantiation<'_> {
        Instantiation::of_read(self.bytes())
    }
}

impl Default for InstantiationBuilder {
    fn default() -> Self {
        InstantiationBuilder::new()
    }
}

impl From<Instantiation<'_>> for InstantiationBuilder {
    fn from(instantiation: Instantiation<'_>) -> Self {
        InstantiationBuilder {
            bytes: Buffer::new(instantiation.bytes()),
        }
    }
}
