//! Type records and schemas, written plainly from documents 01 and 02.

use super::{
    Type, BYTES_END_EARLY, BYTES_LEFT_OVER, COUNT_BYTE_ZERO, EMPTY_RECORD,
    LISTED_ATTRIBUTE_TOO_LOW, TOO_MANY_ORDINARY_ATTRIBUTES,
};

/// The lowest ordinary attribute.
pub(super) const LOWEST_ORDINARY: u32 = 16;
/// The most different ordinary attributes of a schema or an instantiation.
pub(super) const MOST_ORDINARY: usize = 255;

/// Bytes that are read from the front.
pub(super) struct Reader<'a> {
    rest: &'a [u8],
}

impl<'a> Reader<'a> {
    pub(super) fn new(bytes: &'a [u8]) -> Self {
        Reader { rest: bytes }
    }

    /// The next `count` bytes, or the refusal 14.
    pub(super) fn take(&mut self, count: usize) -> Result<&'a [u8], u8> {
        if self.rest.len() < count {
            return Err(BYTES_END_EARLY);
        }
        let (taken, rest) = self.rest.split_at(count);
        self.rest = rest;
        Ok(taken)
    }

    /// The value of the next byte.
    fn byte(&mut self) -> Result<u8, u8> {
        Ok(self.take(1)?[0])
    }

    /// The value of the next two bytes, low first.
    fn pair(&mut self) -> Result<u16, u8> {
        let taken = self.take(2)?;
        Ok(u16::from_le_bytes([taken[0], taken[1]]))
    }

    /// A type record: the map, then the listed attributes if bit 0 stands.
    fn record(&mut self) -> Result<Type, u8> {
        let map = self.pair()?;
        let special = (1..LOWEST_ORDINARY).filter(|attribute| map >> attribute & 1 == 1);
        let mut attributes: Vec<u32> = special.collect();
        if map & 1 == 1 {
            attributes.extend(self.list()?);
        }
        Ok(attributes.into_iter().collect())
    }

    /// The count byte and so many ordinary attributes, each tested as it comes.
    pub(super) fn list(&mut self) -> Result<Vec<u32>, u8> {
        let count = self.byte()?;
        if count == 0 {
            return Err(COUNT_BYTE_ZERO);
        }
        let mut attributes = Vec::new();
        let mut lowest = LOWEST_ORDINARY;
        for _ in 0..count {
            let attribute = u32::from(self.pair()?);
            if attribute < lowest {
                return Err(LISTED_ATTRIBUTE_TOO_LOW);
            }
            attributes.push(attribute);
            lowest = attribute + 1;
        }
        Ok(attributes)
    }

    /// The refusal 17 unless all bytes are read.
    pub(super) fn end(&self) -> Result<(), u8> {
        if !self.rest.is_empty() {
            return Err(BYTES_LEFT_OVER);
        }
        Ok(())
    }
}

/// The ordinary attributes of all relations.
pub(super) fn ordinary_attributes(schema: &[Type]) -> Type {
    let ordinary = schema.iter().flat_map(|held| held.range(LOWEST_ORDINARY..));
    ordinary.copied().collect()
}

/// Reads a schema of m records: the set of each relation, or the first refusal: 14 to
/// 16 as the bytes come, then 17, then 18, then 25.
pub fn read_schema(relations: u8, bytes: &[u8]) -> Result<Vec<Type>, u8> {
    let mut reader = Reader::new(bytes);
    let mut schema = Vec::new();
    for _ in 0..relations {
        schema.push(reader.record()?);
    }
    reader.end()?;
    if ordinary_attributes(&schema).len() > MOST_ORDINARY {
        return Err(TOO_MANY_ORDINARY_ATTRIBUTES);
    }
    if schema.iter().any(Type::is_empty) {
        return Err(EMPTY_RECORD);
    }
    Ok(schema)
}

/// The bytes of a list: the count byte and the attributes, at most 255, each at most
/// 65,535.
pub(super) fn encode_list(list: &Type) -> Vec<u8> {
    let mut bytes = vec![u8::try_from(list.len()).expect("at most 255")];
    for &attribute in list {
        let attribute = u16::try_from(attribute).expect("at most 65,535");
        bytes.extend(attribute.to_le_bytes());
    }
    bytes
}

/// The bytes of a type record; the set has at most 255 ordinary attributes, each at
/// most 65,535.
pub fn encode_record(held: &Type) -> Vec<u8> {
    let special: u16 = held.range(..LOWEST_ORDINARY).map(|bit| 1 << bit).sum();
    let ordinary: Type = held.range(LOWEST_ORDINARY..).copied().collect();
    if ordinary.is_empty() {
        return special.to_le_bytes().to_vec();
    }
    let mut bytes = (special | 1).to_le_bytes().to_vec();
    bytes.extend(encode_list(&ordinary));
    bytes
}

/// The bytes of a schema, the records of its relations.
pub fn encode_schema(schema: &[Type]) -> Vec<u8> {
    schema.iter().flat_map(encode_record).collect()
}
