//! The cover with the fewest memberships, by rows of 256 bytes: for each set of relations that still
//! lack an attribute, the fewest memberships that give each of them one. Sixteen sets are taken at a
//! time, those with the same upper four relations.

use type_formula_tests::reference::COLUMNS;

use super::columns::{fewest, first_bit, read_column, Bits};

/// The fewest memberships that fill a set, for sixteen sets with the same upper four relations.
type Block = [u8; 16];
/// The same for all sets: a block for each set of the upper four relations that there are.
type Row<const BLOCKS: usize> = [Block; BLOCKS];

/// More memberships than any cover has.
const NEVER: u8 = 200;
/// The most variables that a cover takes: each fills a relation that none before it does.
const MOST_VARIABLES: usize = 8;

/// What is chosen.
#[derive(Default)]
pub struct Cover {
    /// The subset of each special attribute; at 0 that of none.
    pub subsets: [u8; 16],
    /// The variables, rising.
    pub variables: [u8; MOST_VARIABLES],
    pub count: usize,
    pub memberships: u8,
}

/// The allowed subsets of each column.
pub type Allowed = [Bits; COLUMNS];

#[inline(always)]
pub fn read_allowed(work: &[u8], node: u8) -> Allowed {
    std::array::from_fn(|column| read_column(work, node, column).allowed)
}

/// By the upper part of a subset: sixteen times the number of its members.
const MEMBERS: [Block; 16] = members();

const fn members() -> [Block; 16] {
    let (mut all, mut part) = ([[0; 16]; 16], 0_usize);
    while part < 16 {
        all[part] = [part.count_ones() as u8; 16];
        part += 1;
    }
    all
}

/// Each of sixteen bytes, or another with an addition if that is lower.
#[inline(always)]
fn lower(block: Block, other: &Block, addition: &Block) -> Block {
    std::array::from_fn(|i| block[i].min(other[i] + addition[i]))
}

/// By a relation of the lower four but for the last: the bytes of eight sets that lack it.
const LACKING: [u64; 3] = [
    0x00ff_00ff_00ff_00ff,
    0x0000_ffff_0000_ffff,
    0x0000_0000_ffff_ffff,
];

/// Gives each set that has the relation, one of the lower four, the value of the set without it.
#[inline(always)]
fn drop_relation(blocks: &mut [[u8; 16]], relation: usize) {
    let Some(lacking) = LACKING.get(relation) else {
        blocks
            .iter_mut()
            .for_each(|block| block.copy_within(..8, 8));
        return;
    };
    for word in blocks.as_flattened_mut().as_chunks_mut().0 {
        let lack = u64::from_le_bytes(*word) & lacking;
        *word = (lack | lack << (8 << relation)).to_le_bytes();
    }
}

/// Gives each set the value of the set without the relations of a lower part.
#[inline(always)]
fn drop_lower_part(blocks: &mut [[u8; 16]], low: usize) {
    let mut rest = low;
    while rest != 0 {
        drop_relation(blocks, rest.trailing_zeros() as usize);
        rest &= rest - 1;
    }
}

/// The upper parts of the subsets allowed that have this lower part.
#[inline(always)]
fn upper_parts<'a, const BLOCKS: usize>(
    allowed: &Bits,
    low: usize,
    room: &'a mut [u8; BLOCKS],
) -> &'a [u8] {
    let mut count = 0;
    for high in 0..BLOCKS {
        room[count] = high as u8;
        count += (allowed[high / 4] >> (16 * (high % 4) + low) & 1) as usize;
        if count == BLOCKS {
            break;
        }
    }
    &room[..count]
}

/// The row of one column more: each set is filled by one of the subsets and then by the others.
#[inline(never)]
fn step<const BLOCKS: usize>(allowed: &Bits, next: &Row<BLOCKS>) -> Row<BLOCKS> {
    let mut row = [[NEVER; 16]; BLOCKS];
    for low in 0..16_usize {
        let mut room = [0; BLOCKS];
        let parts = upper_parts(allowed, low, &mut room);
        if parts.is_empty() {
            continue;
        }
        let mut table = *next;
        drop_lower_part(&mut table, low);
        let members = low.count_ones() as u8;
        table
            .as_flattened_mut()
            .iter_mut()
            .for_each(|byte| *byte += members);
        for &high in parts {
            let high = usize::from(high) % BLOCKS;
            let members = &MEMBERS[high];
            for (place, block) in row.iter_mut().enumerate() {
                *block = lower(*block, &table[place & !high], members);
            }
        }
    }
    row
}

/// The row of the variables: as many as are needed.
#[inline(always)]
fn variables_row<const BLOCKS: usize>(allowed: &Bits) -> Row<BLOCKS> {
    let mut row = [[NEVER; 16]; BLOCKS];
    row[0][0] = 0;
    loop {
        let next = step(allowed, &row);
        if next == row {
            return row;
        }
        row = next;
    }
}

/// The fewest memberships that fill the set.
#[inline(always)]
fn at<const BLOCKS: usize>(row: &Row<BLOCKS>, need: u8) -> u8 {
    row.as_flattened()[usize::from(need) % (16 * BLOCKS)]
}

/// The lowest subset with which the rest of the need is filled with so many memberships in all.
#[inline(always)]
fn choose<const BLOCKS: usize>(
    allowed: &Bits,
    next: &Row<BLOCKS>,
    need: u8,
    memberships: u8,
) -> u8 {
    let is_best = |s: u8| s.count_ones() as u8 + at(next, need & !s) == memberships;
    first_bit(allowed, is_best).expect("the row has one")
}

/// The cover whose special attributes have the first subsets, with fewest members, if these fill
/// all relations.
#[inline(always)]
fn first_subsets(allowed: &Allowed, all: u8) -> Result<Option<Cover>, u8> {
    let (mut cover, mut filled) = (Cover::default(), 0);
    for (column, subsets) in (1..COLUMNS).zip(&allowed[1..]) {
        let s = fewest(subsets).ok_or(column as u8)?;
        cover.subsets[column] = s;
        cover.memberships += s.count_ones() as u8;
        filled |= s;
    }
    Ok((filled == all).then_some(cover))
}

/// The row of the variables, and then those of the columns from 15 down to 1 with all after them.
#[inline(always)]
fn rows<const BLOCKS: usize>(allowed: &Allowed) -> [Row<BLOCKS>; COLUMNS] {
    let mut rows = [variables_row(&allowed[0]); COLUMNS];
    for (place, column) in (1..COLUMNS).rev().enumerate() {
        rows[place + 1] = match allowed[column] == allowed[0] {
            true => rows[place],
            false => step(&allowed[column], &rows[place]),
        };
    }
    rows
}

/// The best cover by the rows.
#[inline(never)]
fn by_rows<const BLOCKS: usize>(allowed: &Allowed, all: u8) -> Option<Cover> {
    let rows: [Row<BLOCKS>; COLUMNS] = rows(allowed);
    let (mut need, mut cover) = (all, Cover::default());
    cover.memberships = at(&rows[COLUMNS - 1], need);
    if cover.memberships >= NEVER {
        return None;
    }
    for column in 1..COLUMNS {
        let (row, next) = (&rows[COLUMNS - column], &rows[COLUMNS - 1 - column]);
        let s = choose(&allowed[column], next, need, at(row, need));
        cover.subsets[column] = s;
        need &= !s;
    }
    let mut variables = allowed[0];
    variables[0] &= !1;
    while need != 0 {
        let s = choose(&variables, &rows[0], need, at(&rows[0], need));
        cover.variables[cover.count] = s;
        cover.count += 1;
        need &= !s;
    }
    Some(cover)
}

/// The best cover, or the attribute with which the node is untypable.
#[inline(always)]
pub fn best_cover(allowed: &Allowed, relations: u8) -> Result<Cover, u8> {
    let all = (255_u16 >> (8 - relations)) as u8;
    if let Some(cover) = first_subsets(allowed, all)? {
        return Ok(cover);
    }
    let cover = match relations {
        ..=4 => by_rows::<1>(allowed, all),
        5 => by_rows::<2>(allowed, all),
        6 => by_rows::<4>(allowed, all),
        7 => by_rows::<8>(allowed, all),
        _ => by_rows::<16>(allowed, all),
    };
    cover.ok_or(0)
}
