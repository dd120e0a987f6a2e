//! Columns as 64-bit words, and the step of each case of nodes. All is inline, so that the
//! compiler sees the loop as a whole.

use type_formula_tests::reference::{
    Formula, Node, COLUMNS, COLUMN_LENGTH, FORMULA_LENGTH, OUTPUT_START,
};

/// 256 bits, one for each subset.
pub type Bits = [u64; 4];

/// The allowed subsets of a column and those that put its attribute in the output.
#[derive(Clone, Copy)]
pub struct Column {
    pub allowed: Bits,
    pub output: Bits,
}

/// A column, word by word.
#[inline]
fn column_of(word: impl Fn(usize) -> (u64, u64)) -> Column {
    let mut column = Column {
        allowed: [0; 4],
        output: [0; 4],
    };
    for i in 0..4 {
        (column.allowed[i], column.output[i]) = word(i);
    }
    column
}

/// The words of 32 bytes.
#[inline]
pub fn read_bits(bytes: &[u8]) -> Bits {
    let mut bits = [0; 4];
    for (word, bytes) in bits.iter_mut().zip(bytes.chunks_exact(8)) {
        *word = u64::from_le_bytes(bytes.try_into().expect("eight bytes"));
    }
    bits
}

#[inline]
pub fn write_bits(bytes: &mut [u8], bits: &Bits) {
    for (bytes, word) in bytes.chunks_exact_mut(8).zip(bits) {
        bytes.copy_from_slice(&word.to_le_bytes());
    }
}

/// The stored formula of a node.
#[inline]
pub fn stored(work: &[u8], node: usize) -> &Formula {
    let start = FORMULA_LENGTH * node;
    work[start..].first_chunk().expect("long enough")
}

/// Whether s is allowed in the column of a stored formula.
#[inline]
pub fn is_allowed(formula: &Formula, column: usize, s: u8) -> bool {
    bit(&formula[COLUMN_LENGTH * column..], s)
}

/// Whether s puts an attribute of the column in the output.
#[inline]
pub fn is_output(formula: &Formula, column: usize, s: u8) -> bool {
    bit(&formula[COLUMN_LENGTH * column + OUTPUT_START..], s)
}

#[inline]
pub fn read_column(work: &[u8], node: u8, column: usize) -> Column {
    let start = FORMULA_LENGTH * usize::from(node) + COLUMN_LENGTH * column;
    let bytes = &work[start..start + COLUMN_LENGTH];
    Column {
        allowed: read_bits(&bytes[..OUTPUT_START]),
        output: read_bits(&bytes[OUTPUT_START..]),
    }
}

/// Whether bit s of the bytes stands.
#[inline]
fn bit(bytes: &[u8], s: u8) -> bool {
    bytes[usize::from(s / 8)] >> (s % 8) & 1 == 1
}

#[inline]
fn write_column(formula: &mut [u8], column: usize, words: &Column) {
    let start = COLUMN_LENGTH * column;
    let bytes = &mut formula[start..start + COLUMN_LENGTH];
    write_bits(&mut bytes[..OUTPUT_START], &words.allowed);
    write_bits(&mut bytes[OUTPUT_START..], &words.output);
}

/// The subsets below 2^m.
#[inline]
fn all_subsets(relations: u8) -> Bits {
    match relations {
        0..=5 => [(1 << (1 << relations)) - 1, 0, 0, 0],
        6 => [u64::MAX, 0, 0, 0],
        7 => [u64::MAX, u64::MAX, 0, 0],
        _ => [u64::MAX; 4],
    }
}

/// The subsets that hold the relation.
#[inline]
fn subsets_with(relation: u8) -> Bits {
    match relation {
        0 => [0xaaaa_aaaa_aaaa_aaaa; 4],
        1 => [0xcccc_cccc_cccc_cccc; 4],
        2 => [0xf0f0_f0f0_f0f0_f0f0; 4],
        3 => [0xff00_ff00_ff00_ff00; 4],
        4 => [0xffff_0000_ffff_0000; 4],
        5 => [0xffff_ffff_0000_0000; 4],
        6 => [0, u64::MAX, 0, u64::MAX],
        _ => [0, 0, u64::MAX, u64::MAX],
    }
}

#[inline]
fn equal_types(left: &Column, right: &Column) -> Column {
    column_of(|i| {
        let agree = !(left.output[i] ^ right.output[i]);
        let allowed = left.allowed[i] & right.allowed[i] & agree;
        (allowed, allowed & left.output[i])
    })
}

#[inline]
fn join(left: &Column, right: &Column) -> Column {
    column_of(|i| {
        let allowed = left.allowed[i] & right.allowed[i];
        (allowed, allowed & (left.output[i] | right.output[i]))
    })
}

#[inline]
fn product(left: &Column, right: &Column) -> Column {
    column_of(|i| {
        let both = left.output[i] & right.output[i];
        let allowed = left.allowed[i] & right.allowed[i] & !both;
        (allowed, allowed & (left.output[i] | right.output[i]))
    })
}

/// The attribute must be present; the result has it or not.
#[inline]
fn present(operand: &Column, stays: bool) -> Column {
    column_of(|i| (operand.output[i], if stays { operand.output[i] } else { 0 }))
}

/// The attribute must be absent and comes.
#[inline]
fn absent(operand: &Column) -> Column {
    column_of(|i| {
        let allowed = operand.allowed[i] & !operand.output[i];
        (allowed, allowed)
    })
}

/// The result does not have the attribute.
#[inline]
fn dropped(operand: &Column) -> Column {
    column_of(|i| (operand.allowed[i], 0))
}

const NOTHING: Column = Column {
    allowed: [0; 4],
    output: [0; 4],
};

/// The column of a relation, the same for every attribute.
#[inline]
fn relation_column(relations: u8, relation: u8) -> Column {
    let (all, with) = (all_subsets(relations), subsets_with(relation));
    column_of(|i| (all[i], all[i] & with[i]))
}

/// Writes the columns of a formula, each by its number.
#[inline]
fn write_columns(formula: &mut [u8], column: impl Fn(usize) -> Column) {
    for number in 0..COLUMNS {
        write_column(formula, number, &column(number));
    }
}

/// The formula of a node from those of the earlier nodes: a loop for each operator, so that
/// what depends on the node alone is outside.
#[inline]
pub fn write_formula(node: Node, relations: u8, earlier: &[u8], formula: &mut [u8]) {
    let read = |operand, column| read_column(earlier, operand, column);
    match node {
        Node::Relation { relation } => {
            let own = relation_column(relations, relation);
            write_columns(formula, |_| own);
        }
        Node::Union { left, right } | Node::Difference { left, right } => {
            write_columns(formula, |c| equal_types(&read(left, c), &read(right, c)));
        }
        Node::NaturalJoin { left, right } => {
            write_columns(formula, |c| join(&read(left, c), &read(right, c)));
        }
        Node::Product { left, right } => {
            write_columns(formula, |c| product(&read(left, c), &read(right, c)));
        }
        Node::Selection { operand, set } => write_columns(formula, |c| {
            if set >> c & 1 == 1 {
                present(&read(operand, c), true)
            } else {
                read(operand, c)
            }
        }),
        Node::Projection { operand, set } => write_columns(formula, |c| {
            if set >> c & 1 == 1 {
                present(&read(operand, c), true)
            } else {
                dropped(&read(operand, c))
            }
        }),
        Node::Renaming { operand, old, new } => write_columns(formula, |c| {
            match (usize::from(old) == c, usize::from(new) == c) {
                (true, true) => NOTHING,
                (true, false) => present(&read(operand, c), false),
                (false, true) => absent(&read(operand, c)),
                (false, false) => read(operand, c),
            }
        }),
        Node::ProjectingOut { operand, old } => write_columns(formula, |c| {
            if usize::from(old) == c {
                present(&read(operand, c), false)
            } else {
                read(operand, c)
            }
        }),
    }
}

/// The lowest bit that stands, if one does.
#[inline]
fn lowest(bits: &Bits) -> Option<u8> {
    let place = bits.iter().position(|&word| word != 0)?;
    Some((64 * place as u32 + bits[place].trailing_zeros()) as u8)
}

/// The lowest bit that stands and for which this holds, if there is one.
#[inline]
pub fn first_bit(bits: &Bits, holds: impl Fn(u8) -> bool) -> Option<u8> {
    for (number, &word) in bits.iter().enumerate() {
        let mut rest = word;
        while rest != 0 {
            let s = (64 * number as u32 + rest.trailing_zeros()) as u8;
            if holds(s) {
                return Some(s);
            }
            rest &= rest - 1;
        }
    }
    None
}

/// By the number of its members: the bits of the subsets that have so many.
const BY_MEMBERS: [Bits; 9] = by_members();

const fn by_members() -> [Bits; 9] {
    let mut all = [[0; 4]; 9];
    let mut s = 0;
    while s < 256_usize {
        all[s.count_ones() as usize][s / 64] |= 1 << (s % 64);
        s += 1;
    }
    all
}

/// The bit that stands for a subset with fewest members, of those the lowest, if one does.
#[inline]
pub fn fewest(bits: &Bits) -> Option<u8> {
    let with = |members: &Bits| lowest(&std::array::from_fn(|i| bits[i] & members[i]));
    BY_MEMBERS.iter().find_map(with)
}
