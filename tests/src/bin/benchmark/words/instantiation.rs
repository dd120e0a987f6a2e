//! Instantiations: reading one into a table, and writing one from a table.

use type_formula_tests::reference::{
    ATTRIBUTE_IN_TWO_LISTS, LISTS_START, TOO_MANY_ORDINARY_ATTRIBUTES,
};

use super::buffer::Buffer;
use super::columns::{read_bits, write_bits, Bits};
use super::lists::{attribute, List, Reader, MOST_ORDINARY};
use super::reader::refuse_if;
use super::schema::{EntryRoom, Schema};
use super::sets::transpose;
use super::sort::sort;

/// An instantiation as a table.
pub struct Instantiation<'a> {
    /// The subset of each special attribute; at 0 that of none.
    pub subsets: [u8; 16],
    /// The subsets that have a list.
    pub map: Bits,
    pub entries: &'a [u32],
}

/// Reads the list of each subset of the map and hands it on.
#[inline(always)]
fn each_list(
    map: &Bits,
    reader: &mut Reader,
    mut take: impl FnMut(u32, List) -> Result<(), u8>,
) -> Result<(), u8> {
    for (number, &word) in (0..).zip(map) {
        let mut rest = word;
        while rest != 0 {
            take(64 * number + rest.trailing_zeros(), reader.list()?)?;
            rest &= rest - 1;
        }
    }
    Ok(())
}

/// The refusal of more than 255 attributes: that of one in two lists comes first.
#[cold]
#[inline(never)]
fn refusal_of_many(map: &Bits, lists: &[u8]) -> u8 {
    let mut marks = [0_u64; 1 << 10];
    let marked = each_list(map, &mut Reader::new(lists), |_, list| {
        for new in list {
            let attribute = attribute(new);
            let (word, bit) = (&mut marks[attribute as usize / 64], 1 << (attribute % 64));
            refuse_if(*word & bit != 0, ATTRIBUTE_IN_TWO_LISTS)?;
            *word |= bit;
        }
        Ok(())
    });
    marked.err().unwrap_or(TOO_MANY_ORDINARY_ATTRIBUTES)
}

/// Whether two entries, one after the other, have the same attribute.
#[inline(always)]
fn has_equal_neighbours(entries: &[u32]) -> bool {
    let mut has = false;
    for two in entries.windows(2) {
        has |= two[0] >> 8 == two[1] >> 8;
    }
    has
}

/// Reads an instantiation with all tests of its bytes.
#[inline(always)]
pub fn read_instantiation<'a>(
    bytes: &[u8],
    [first, second]: [&'a mut EntryRoom; 2],
) -> Result<Instantiation<'a>, u8> {
    let mut reader = Reader::new(bytes);
    let mut subsets = [0; 16];
    subsets[1..].copy_from_slice(reader.take::<15>()?);
    let map = read_bits(reader.take::<32>()?);
    let (mut entries, mut count) = (Buffer::new(first), 0);
    each_list(&map, &mut reader, |s, list| {
        count += list.len();
        match list {
            _ if count > MOST_ORDINARY => {}
            [new] => entries.push(attribute(new) << 8 | s),
            _ => list
                .iter()
                .for_each(|new| entries.push(attribute(new) << 8 | s)),
        }
        Ok(())
    })?;
    reader.end()?;
    if count > MOST_ORDINARY {
        return Err(refusal_of_many(&map, &bytes[LISTS_START..]));
    }
    sort(&mut entries, &mut Buffer::new(second));
    refuse_if(has_equal_neighbours(&entries), ATTRIBUTE_IN_TWO_LISTS)?;
    Ok(Instantiation {
        subsets,
        map,
        entries: entries.into_slice(),
    })
}

/// The special attributes of each relation, from the subset of each.
#[inline(always)]
pub fn maps_of(subsets: &[u8; 16]) -> [u16; 8] {
    let (low, high) = subsets.split_at(8);
    let bytes = |half: &[u8]| {
        let bits = u64::from_le_bytes(half.try_into().expect("eight bytes"));
        transpose(bits).to_le_bytes()
    };
    let (low, high) = (bytes(low), bytes(high));
    std::array::from_fn(|relation| u16::from_le_bytes([low[relation], high[relation]]))
}

/// The subset of each special attribute, from the special attributes of each relation.
#[inline(always)]
pub fn subsets_of(maps: &[u16; 8]) -> [u8; 16] {
    let (mut low, mut high) = (0, 0);
    for (relation, &map) in maps.iter().enumerate() {
        low |= u64::from(map & 0xff) << (8 * relation);
        high |= u64::from(map >> 8) << (8 * relation);
    }
    (u128::from(transpose(low)) | u128::from(transpose(high)) << 64).to_le_bytes()
}

/// The lists of an instantiation, before they are written.
pub struct Lists {
    /// Bit s stands if there is a list of s.
    pub map: Bits,
    /// How many attributes the list of each s has.
    counts: [u16; 256],
}

impl Lists {
    #[inline(always)]
    pub fn new() -> Self {
        Lists {
            map: [0; 4],
            counts: [0; 256],
        }
    }

    /// Counts the entries, each in its list.
    #[inline(always)]
    pub fn count(&mut self, entries: &[u32]) {
        for &entry in entries {
            let s = entry as u8;
            self.map[usize::from(s / 64)] |= 1 << (s % 64);
            self.counts[usize::from(s)] += 1;
        }
    }

    /// Writes the count bytes, each where its list begins, and then the attributes of the
    /// same entries, each at the place of its list that comes next. Gives the length of the
    /// instantiation.
    #[inline(always)]
    fn write(&mut self, entries: &[u32], out: &mut [u8]) -> usize {
        let places = &mut self.counts;
        let mut end = LISTS_START;
        for (number, &word) in self.map.iter().enumerate() {
            let mut rest = word;
            while rest != 0 {
                let place = &mut places[64 * number + rest.trailing_zeros() as usize];
                let count = *place;
                out[end] = count as u8;
                *place = end as u16 + 1;
                end += 1 + 2 * usize::from(count);
                rest &= rest - 1;
            }
        }
        for &entry in entries {
            let place = &mut places[usize::from(entry as u8)];
            let start = usize::from(*place);
            out[start..start + 2].copy_from_slice(&((entry >> 8) as u16).to_le_bytes());
            *place += 2;
        }
        end
    }
}

/// Writes the instantiation whose image is the schema, given the subsets of its special
/// attributes and its lists, and gives its length.
#[inline(always)]
pub fn write_instantiation(
    schema: &Schema,
    subsets: &[u8; 16],
    lists: &mut Lists,
    out: &mut [u8],
) -> usize {
    out[..15].copy_from_slice(&subsets[1..]);
    write_bits(&mut out[15..LISTS_START], &lists.map);
    lists.write(schema.entries, out)
}
