//! Schemas.

use core::fmt::{self, Display, Formatter};

use crate::{typing, Refusal, TypeRecord, OUTPUT_SIZE};

/// A schema (FORMAT, section 5): a type record for each relation. Its text is each relation with
/// its columns, `a1` to `a15` if they are special attributes, else by their numbers.
///
/// ```
/// use type_formula::{Refusal, Schema};
///
/// let schema = Schema::read(2, &[0x0a, 0, 0x0d, 0, 1, 20, 0])?;
/// assert_eq!(schema.to_string(), "r0(a1, a3), r1(a2, a3, 20)");
///
/// assert_eq!(Schema::read(1, schema.bytes()), Err(Refusal::InputFollowed));
/// assert_eq!(Schema::read(2, &[0x0a, 0, 0, 0]), Err(Refusal::EmptyRecord));
/// # Ok::<(), Refusal>(())
/// ```
#[derive(Clone, Copy, Debug, PartialEq, Eq, Hash)]
pub struct Schema<'a> {
    relations: u8,
    bytes: &'a [u8],
}

impl<'a> Schema<'a> {
    /// The view of bytes that an operation read or wrote.
    pub(crate) fn of_read(relations: u8, bytes: &'a [u8]) -> Self {
        Schema { relations, bytes }
    }

    /// The schema of so many relations that the bytes are. Refusals: 2, 14 to 18 and 25.
    pub fn read(relations: u8, bytes: &'a [u8]) -> Result<Self, Refusal> {
        // Every schema types r0, so that Typing refuses just the bytes that are none.
        let file = [relations, 1, 1, 0];
        typing(&file, 0, bytes, &mut [0; OUTPUT_SIZE])?;
        Ok(Schema::of_read(relations, bytes))
    }

    /// The bytes of the schema.
    pub fn bytes(self) -> &'a [u8] {
        self.bytes
    }

    /// The number of its relations.
    pub fn relation_count(self) -> u8 {
        self.relations
    }

    /// The types of the relations, from relation 0.
    pub fn records(self) -> Records<'a> {
        Records { rest: self.bytes }
    }

    /// The type of the relation of this number, if there is one.
    pub fn record(self, relation: u8) -> Option<TypeRecord<'a>> {
        self.records().nth(usize::from(relation))
    }
}

impl Display for Schema<'_> {
    fn fmt(&self, f: &mut Formatter<'_>) -> fmt::Result {
        for (relation, record) in self.records().enumerate() {
            let before = if relation == 0 { "" } else { ", " };
            write!(f, "{before}r{relation}{record}")?;
        }
        Ok(())
    }
}

/// The type records of a schema.
#[derive(Clone, Debug)]
pub struct Records<'a> {
    rest: &'a [u8],
}

impl<'a> Iterator for Records<'a> {
    type Item = TypeRecord<'a>;

    fn next(&mut self) -> Option<TypeRecord<'a>> {
        if self.rest.is_empty() {
            return None;
        }
        let (record, rest) = TypeRecord::split(self.rest);
        self.rest = rest;
        Some(record)
    }
}
