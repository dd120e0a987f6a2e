//! Building a schema.

use super::buffer::Buffer;
use crate::attributes::LAST_SPECIAL;
use crate::{Refusal, Schema, MOST_RELATIONS, SCHEMA_SIZE};

/// Builds a schema relation by relation, from attributes in any order. A relation that is refused
/// leaves the builder as it was.
///
/// ```
/// use type_formula::{Refusal, SchemaBuilder};
///
/// let mut schema = SchemaBuilder::new();
/// schema.relation([1, 3])?;
/// schema.relation([20, 3, 2])?;
/// assert_eq!(schema.schema()?.to_string(), "r0(a1, a3), r1(a2, a3, 20)");
/// assert_eq!(schema.schema()?.bytes(), [0x0a, 0, 0x0d, 0, 1, 20, 0]);
///
/// assert_eq!(schema.relation([0]), Err(Refusal::Attribute));
/// assert_eq!(schema.relation([]), Err(Refusal::EmptyRecord));
/// # Ok::<(), Refusal>(())
/// ```
#[derive(Clone, Debug)]
pub struct SchemaBuilder {
    relations: u8,
    bytes: Buffer<SCHEMA_SIZE>,
}

impl SchemaBuilder {
    /// A schema without a relation.
    pub fn new() -> Self {
        SchemaBuilder {
            relations: 0,
            bytes: Buffer::new(&[]),
        }
    }

    /// Adds an attribute to the record at this place, which is the last.
    fn insert(&mut self, at: usize, attribute: u16) -> Result<(), Refusal> {
        if attribute == 0 {
            return Err(Refusal::Attribute);
        }
        if attribute <= u16::from(LAST_SPECIAL) {
            let place = at + usize::from(attribute / 8);
            self.bytes.bytes_mut()[place] |= 1 << (attribute % 8);
            return Ok(());
        }
        if self.bytes.bytes()[at] & 1 == 0 {
            self.bytes.bytes_mut()[at] |= 1;
            self.bytes.insert(at + 2, &[0]);
        }
        self.bytes.insert_listed(at + 2, attribute)
    }

    /// Adds the record of the next relation.
    fn add(&mut self, attributes: impl IntoIterator<Item = u16>) -> Result<u8, Refusal> {
        let (relation, at) = (self.relations, self.bytes.length());
        self.bytes.insert(at, &[0, 0]);
        for attribute in attributes {
            self.insert(at, attribute)?;
        }
        Schema::read(relation + 1, self.bytes.bytes())?;
        self.relations += 1;
        Ok(relation)
    }

    /// Adds the next relation with these attributes, and gives its number. Refusals: 2 where there
    /// are eight relations, 9 for attribute 0, 18, and 25 without an attribute.
    pub fn relation(&mut self, attributes: impl IntoIterator<Item = u16>) -> Result<u8, Refusal> {
        if usize::from(self.relations) == MOST_RELATIONS {
            return Err(Refusal::RelationCount);
        }
        let length = self.bytes.length();
        let added = self.add(attributes);
        if added.is_err() {
            self.bytes.truncate(length);
        }
        added
    }

    /// The schema of the relations added so far. It is [`RelationCount`](Refusal::RelationCount) if
    /// there is none.
    pub fn schema(&self) -> Result<Schema<'_>, Refusal> {
        Schema::read(self.relations, self.bytes.bytes())
    }
}

impl Default for SchemaBuilder {
    fn default() -> Self {
        SchemaBuilder::new()
    }
}
