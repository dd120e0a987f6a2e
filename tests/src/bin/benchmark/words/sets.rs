//! Types as bit sets.

/// A type as a bit set: bit i for special attribute i, and from bit 16 on a bit for each
/// entry of the table.
pub type Set<const WORDS: usize> = [u64; WORDS];

/// The bit of the table's first entry.
const FIRST_ENTRY: usize = 16;

/// The number of words for a table of so many entries.
#[inline(always)]
pub fn words_for(entries: usize) -> usize {
    (FIRST_ENTRY + entries).div_ceil(64)
}

/// Hands on the place of each entry of the set, rising.
#[inline(always)]
pub fn each_entry<const WORDS: usize>(set: &Set<WORDS>, mut take: impl FnMut(usize)) {
    let mut rest = set[0] >> FIRST_ENTRY << FIRST_ENTRY;
    for number in 0..WORDS {
        while rest != 0 {
            take(64 * number + rest.trailing_zeros() as usize - FIRST_ENTRY);
            rest &= rest - 1;
        }
        rest = set.get(number + 1).copied().unwrap_or(0);
    }
}

/// The set of these special attributes and of the entries chosen.
#[inline(always)]
pub fn set_of<const WORDS: usize>(
    map: u16,
    entries: &[u32],
    is_chosen: impl Fn(u32) -> bool,
) -> Set<WORDS> {
    let (mut rest, mut first) = (entries, FIRST_ENTRY);
    let mut set = [0; WORDS];
    set[0] = map.into();
    for word in &mut set {
        let (here, after) = rest.split_at(rest.len().min(64 - first));
        for (bit, &entry) in (first..64).zip(here) {
            *word |= u64::from(is_chosen(entry)) << bit;
        }
        (rest, first) = (after, 0);
    }
    set
}

#[inline(always)]
pub fn union<const WORDS: usize>(left: &Set<WORDS>, right: &Set<WORDS>) -> Set<WORDS> {
    std::array::from_fn(|i| left[i] | right[i])
}

#[inline(always)]
pub fn are_disjoint<const WORDS: usize>(left: &Set<WORDS>, right: &Set<WORDS>) -> bool {
    (0..WORDS).fold(0, |both, i| both | left[i] & right[i]) == 0
}

#[inline(always)]
pub fn are_equal<const WORDS: usize>(left: &Set<WORDS>, right: &Set<WORDS>) -> bool {
    (0..WORDS).fold(0, |differ, i| differ | left[i] ^ right[i]) == 0
}

/// Bit i of byte j becomes bit j of byte i.
#[inline(always)]
pub fn transpose(mut bits: u64) -> u64 {
    for (distance, mask) in [
        (7, 0x00aa_00aa_00aa_00aa),
        (14, 0x0000_cccc_0000_cccc),
        (28, 0x0000_0000_f0f0_f0f0),
    ] {
        let changed = (bits ^ bits >> distance) & mask;
        bits ^= changed ^ changed << distance;
    }
    bits
}

/// The lowest eight bits of up to eight entries, one byte each.
#[inline(always)]
fn subsets(entries: &[u32]) -> u64 {
    let mut bytes = [0; 8];
    for (byte, &entry) in bytes.iter_mut().zip(entries) {
        *byte = entry as u8;
    }
    u64::from_le_bytes(bytes)
}

/// The set of each relation.
#[inline(always)]
pub fn relation_sets<const WORDS: usize>(maps: &[u16; 8], entries: &[u32]) -> [Set<WORDS>; 8] {
    let mut sets = [[0; WORDS]; 8];
    for (set, &map) in sets.iter_mut().zip(maps) {
        set[0] = map.into();
    }
    for (number, entries) in entries.chunks(8).enumerate() {
        let bit = FIRST_ENTRY + 8 * number;
        let bytes = transpose(subsets(entries)).to_le_bytes();
        for (set, byte) in sets.iter_mut().zip(bytes) {
            set[bit / 64] |= u64::from(byte) << (bit % 64);
        }
    }
    sets
}
