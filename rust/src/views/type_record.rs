//! Type records.

use core::fmt::{self, Display, Formatter};

use crate::attributes::{specials, write_attributes};
use crate::{Refusal, Schema};

/// A type record (FORMAT, section 4): a type as bytes. Its text is the attributes in brackets,
/// `a1` to `a15` if they are special, else by their numbers.
///
/// ```
/// use type_formula::{Refusal, TypeRecord};
///
/// let record = TypeRecord::read(&[0x0b, 0, 2, 16, 0, 0, 1])?;
/// assert_eq!(record.to_string(), "(a1, a3, 16, 256)");
/// assert!(record.has(3) && record.has(256) && !record.has(2));
///
/// assert_eq!(TypeRecord::read(&[0, 0])?.to_string(), "()");
/// assert_eq!(TypeRecord::read(&[0x0b, 0, 0]), Err(Refusal::CountZero));
/// # Ok::<(), Refusal>(())
/// ```
#[derive(Clone, Copy, Debug, PartialEq, Eq, Hash)]
pub struct TypeRecord<'a> {
    bytes: &'a [u8],
}

impl<'a> TypeRecord<'a> {
    /// The view of bytes that an operation read or wrote.
    pub(crate) fn of_read(bytes: &'a [u8]) -> Self {
        TypeRecord { bytes }
    }

    /// The record that the bytes are. Refusals: 14 to 17, as for a schema of one relation; but it
    /// may be empty, as an output record may.
    pub fn read(bytes: &'a [u8]) -> Result<Self, Refusal> {
        match Schema::read(1, bytes) {
            Ok(_) | Err(Refusal::EmptyRecord) => Ok(TypeRecord::of_read(bytes)),
            Err(refusal) => Err(refusal),
        }
    }

    /// The record that the bytes begin with, and the rest.
    pub(crate) fn split(bytes: &'a [u8]) -> (Self, &'a [u8]) {
        let size = match bytes[0] & 1 {
            0 => 2,
            _ => 3 + 2 * usize::from(bytes[2]),
        };
        let (record, rest) = bytes.split_at(size);
        (TypeRecord::of_read(record), rest)
    }

    /// The bytes of the record.
    pub fn bytes(self) -> &'a [u8] {
        self.bytes
    }

    /// The set of its special attributes: bit i stands for attribute i, and bit 0 is clear.
    pub fn special_set(self) -> u16 {
        u16::from_le_bytes([self.bytes[0], self.bytes[1]]) & !1
    }

    /// Its special attributes, rising.
    pub fn specials(self) -> impl Iterator<Item = u16> {
        specials(self.special_set())
    }

    /// Its ordinary attributes, rising.
    pub fn ordinaries(self) -> List<'a> {
        List {
            bytes: self.bytes.get(3..).unwrap_or(&[]),
        }
    }

    /// All its attributes, rising.
    pub fn attributes(self) -> impl Iterator<Item = u16> + 'a {
        self.specials().chain(self.ordinaries())
    }

    /// Whether the type has the attribute.
    pub fn has(self, attribute: u16) -> bool {
        self.attributes().any(|each| each == attribute)
    }
}

impl Display for TypeRecord<'_> {
    fn fmt(&self, f: &mut Formatter<'_>) -> fmt::Result {
        write!(f, "(")?;
        write_attributes(f, self.attributes())?;
        write!(f, ")")
    }
}

/// The ordinary attributes of a list (FORMAT 4.3), rising.
#[derive(Clone, Debug)]
pub struct List<'a> {
    bytes: &'a [u8],
}

impl<'a> List<'a> {
    /// The list that the bytes begin with, and the rest.
    pub(crate) fn split(bytes: &'a [u8]) -> (Self, &'a [u8]) {
        let (bytes, rest) = bytes[1..].split_at(2 * usize::from(bytes[0]));
        (List { bytes }, rest)
    }
}

impl Iterator for List<'_> {
    type Item = u16;

    fn next(&mut self) -> Option<u16> {
        let (&[low, high], rest) = self.bytes.split_first_chunk()?;
        self.bytes = rest;
        Some(u16::from_le_bytes([low, high]))
    }

    fn size_hint(&self) -> (usize, Option<usize>) {
        (self.len(), Some(self.len()))
    }
}

impl ExactSizeIterator for List<'_> {
    fn len(&self) -> usize {
        self.bytes.len() / 2
    }
}
