//! Reading what type records and instantiations are made of.

use type_formula_tests::reference::{
    BYTES_END_EARLY, BYTES_LEFT_OVER, COUNT_BYTE_ZERO, LISTED_ATTRIBUTE_TOO_LOW,
};

use super::reader::refuse_if;

/// The most different ordinary attributes of a schema or an instantiation.
pub const MOST_ORDINARY: usize = 255;

/// Ordinary attributes, rising, two bytes each.
pub type List<'a> = &'a [[u8; 2]];

#[inline(always)]
pub fn attribute(bytes: &[u8; 2]) -> u32 {
    u16::from_le_bytes(*bytes).into()
}

/// Whether the attributes, at least one, are ordinary and each is above the one before.
#[inline(always)]
fn is_rising(list: List) -> bool {
    let mut rises = u16::from_le_bytes(list[0]) >= 16;
    for (before, next) in list.iter().zip(&list[1..]) {
        rises &= u16::from_le_bytes(*before) < u16::from_le_bytes(*next);
    }
    rises
}

/// The refusal of a list that ends early: that of an attribute in the part comes first.
#[cold]
fn refusal_of_part(part: &[u8]) -> u8 {
    let list = part.as_chunks().0;
    if list.is_empty() || is_rising(list) {
        BYTES_END_EARLY
    } else {
        LISTED_ATTRIBUTE_TOO_LOW
    }
}

/// Bytes that are read from the front.
pub struct Reader<'a> {
    rest: &'a [u8],
}

impl<'a> Reader<'a> {
    #[inline(always)]
    pub fn new(bytes: &'a [u8]) -> Self {
        Reader { rest: bytes }
    }

    /// The next N bytes.
    #[inline(always)]
    pub fn take<const N: usize>(&mut self) -> Result<&'a [u8; N], u8> {
        let (taken, rest) = self.rest.split_first_chunk().ok_or(BYTES_END_EARLY)?;
        self.rest = rest;
        Ok(taken)
    }

    /// The count byte and so many attributes.
    #[inline(always)]
    pub fn list(&mut self) -> Result<List<'a>, u8> {
        let [count] = *self.take()?;
        refuse_if(count == 0, COUNT_BYTE_ZERO)?;
        let Some((list, rest)) = self.rest.split_at_checked(2 * usize::from(count)) else {
            return Err(refusal_of_part(self.rest));
        };
        let list = list.as_chunks().0;
        refuse_if(!is_rising(list), LISTED_ATTRIBUTE_TOO_LOW)?;
        self.rest = rest;
        Ok(list)
    }

    #[inline(always)]
    pub fn end(&self) -> Result<(), u8> {
        refuse_if(!self.rest.is_empty(), BYTES_LEFT_OVER)
    }
}
