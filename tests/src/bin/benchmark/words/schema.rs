//! Schemas and type records: reading a schema into a table, and writing a record.

use std::mem::{replace, take};

use type_formula_tests::reference::{EMPTY_RECORD, TOO_MANY_ORDINARY_ATTRIBUTES};

use super::buffer::{Buffer, Room};
use super::lists::{attribute, List, Reader, MOST_ORDINARY};
use super::reader::refuse_if;
use super::sets::{each_entry, Set};

/// Entries of a table, rising: each is an ordinary attribute shifted left by eight, with the
/// subset of the relations that hold it in the lowest eight bits.
pub type Entries<'a> = Buffer<'a, u32>;

/// Room for the most entries and one list more.
pub type EntryRoom = Room<u32, { 2 * MOST_ORDINARY }>;

/// A schema as a table.
pub struct Schema<'a> {
    /// The special attributes of each relation.
    pub maps: [u16; 8],
    pub entries: &'a [u32],
}

/// Marks the attributes of a relation's list in the table, up to the first that it lacks.
/// Gives the place of the first entry above those marked, and how many are marked.
#[inline(always)]
fn mark(table: &mut [u32], list: List, relation: u32) -> (usize, usize) {
    let (mut place, mut marked) = (0, 0);
    while marked < list.len() {
        let new = attribute(&list[marked]);
        while place < table.len() && table[place] < new << 8 {
            place += 1;
        }
        if place == table.len() || table[place] >> 8 != new {
            break;
        }
        table[place] |= relation;
        place += 1;
        marked += 1;
    }
    (place, marked)
}

/// Merges the entries of a table with a list of a relation and adds them to others.
#[inline(always)]
fn merge<'a>(table: &[u32], list: List, relation: u32, mut merged: Entries<'a>) -> Entries<'a> {
    let (mut place, mut taken) = (0, 0);
    while place < table.len() && taken < list.len() {
        let (old, new) = (table[place], attribute(&list[taken]));
        if old >> 8 < new {
            merged.push(old);
            place += 1;
        } else if old >> 8 == new {
            merged.push(old | relation);
            place += 1;
            taken += 1;
        } else {
            merged.push(new << 8 | relation);
            taken += 1;
        }
    }
    merged.extend(&table[place..]);
    let rest = list[taken..].iter();
    merged.extend_with(rest.map(|new| attribute(new) << 8 | relation));
    merged
}

/// Adds the list of a relation to the table: in place as long as the table has its
/// attributes, and from there on by merging into the buffer that is free, which then is the
/// table. It is a function of its own for the sake of the registers.
#[inline(never)]
fn add_list<'a>(table: &mut Entries<'a>, list: List, relation: u32, free: &mut Entries<'a>) {
    let (place, marked) = mark(table, list, relation);
    if marked == list.len() {
        return;
    }
    let mut merged = take(free);
    merged.clear();
    merged.extend(&table[..place]);
    let merged = merge(&table[place..], &list[marked..], relation, merged);
    *free = replace(table, merged);
}

/// Reads a schema with all tests of its bytes. Relation by relation the list is merged with
/// the table so far, from one buffer to the other.
#[inline(always)]
pub fn read_schema<'a>(
    relations: u8,
    bytes: &[u8],
    [first, second]: [&'a mut EntryRoom; 2],
) -> Result<Schema<'a>, u8> {
    let [mut table, mut free] = [Buffer::new(first), Buffer::new(second)];
    let (mut reader, mut maps) = (Reader::new(bytes), [0; 8]);
    let mut is_empty = false;
    for relation in 0..usize::from(relations) {
        let map = u16::from_le_bytes(*reader.take()?);
        maps[relation & 7] = map & !1;
        is_empty |= map == 0;
        if map & 1 == 1 {
            let list = reader.list()?;
            if table.len() <= MOST_ORDINARY {
                add_list(&mut table, list, 1 << relation, &mut free);
            }
        }
    }
    reader.end()?;
    refuse_if(table.len() > MOST_ORDINARY, TOO_MANY_ORDINARY_ATTRIBUTES)?;
    refuse_if(is_empty, EMPTY_RECORD)?;
    Ok(Schema {
        maps,
        entries: table.into_slice(),
    })
}

/// Writes the record of the set and gives its length.
#[inline(always)]
pub fn write_record<const WORDS: usize>(
    set: &Set<WORDS>,
    entries: &[u32],
    out: &mut [u8],
) -> usize {
    let [low, high] = (set[0] as u16).to_le_bytes();
    let places = out[3..].as_chunks_mut().0;
    let mut count = 0;
    each_entry(set, |place| {
        places[count] = ((entries[place] >> 8) as u16).to_le_bytes();
        count += 1;
    });
    if count == 0 {
        out[..2].copy_from_slice(&[low, high]);
        return 2;
    }
    out[..3].copy_from_slice(&[low | 1, high, count as u8]);
    3 + 2 * count
}
