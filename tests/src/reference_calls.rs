//! Calls of the reference alone, of which it is asserted what they leave in each slice.

use std::fmt::Debug;

use crate::edit_examples::Judgement;
use crate::pseudorandom::Random;
use crate::reference::{
    apply, edit, infer, parse_query, preview, recover, typing, Apply, Edit, Inferred, ParseQuery,
    Preview, Recover, Typing, BYTES_END_EARLY, BYTES_LEFT_OVER, FILE_LENGTH, INSTANTIATION_LENGTH,
    OUTPUT_LENGTH, SCHEMA_LENGTH, STANDING_BIT_NO_TYPE_VARIABLE,
};
use crate::slice_lengths::work_length;
use crate::typing_examples::Answer;

/// The byte that fills slices before a call.
const FILL: u8 = 0xaa;

/// Whether the slice is as it was before the call.
fn is_untouched(slice: &[u8]) -> bool {
    slice.iter().all(|&byte| byte == FILL)
}

/// Asserts that the work space has the formulas of the file at its front, and the rest
/// is untouched.
fn assert_filled(inferred: &Inferred, work: &[u8]) {
    let formulas = inferred.formulas.concat();
    assert!(work.starts_with(&formulas));
    assert!(is_untouched(&work[formulas.len()..]));
}

/// Cuts the bytes beyond the length off, which are untouched.
fn written(mut slice: Vec<u8>, length: usize) -> Vec<u8> {
    assert!(is_untouched(&slice[length..]));
    slice.truncate(length);
    slice
}

/// Apply with slices of these lengths: schema and output record, or the refusal. Asserts
/// what the work space holds and that all other bytes stay.
pub fn apply_with(
    file: &[u8],
    node: usize,
    instantiation: &[u8],
    [work_length, schema_length, out_length]: [usize; 3],
) -> Result<(Vec<u8>, Vec<u8>), u8> {
    let mut work = vec![FILL; work_length];
    let (mut schema, mut out) = (vec![FILL; schema_length], vec![FILL; out_length]);
    let answer = apply(file, node, instantiation, &mut work, &mut schema, &mut out);
    match answer {
        Apply::Refused { number } if number < STANDING_BIT_NO_TYPE_VARIABLE => {
            assert!(is_untouched(&work));
        }
        _ => assert_filled(&infer(file).expect("accepted"), &work),
    }
    match answer {
        Apply::Applied {
            schema: schema_length,
            output,
        } => Ok((written(schema, schema_length), written(out, output))),
        Apply::Refused { number } => {
            assert!(is_untouched(&schema) && is_untouched(&out));
            Err(number)
        }
    }
}

/// Recover with slices of these lengths: the instantiation, none if untyped, or the
/// refusal. Asserts what the work space holds and that all other bytes stay.
pub fn recover_with(
    file: &[u8],
    node: usize,
    schema: &[u8],
    [work_length, instantiation_length]: [usize; 2],
) -> Answer<Vec<u8>> {
    let mut work = vec![FILL; work_length];
    let mut instantiation = vec![FILL; instantiation_length];
    let answer = recover(file, node, schema, &mut work, &mut instantiation);
    match answer {
        Recover::Refused { .. } => assert!(is_untouched(&work)),
        _ => assert_filled(&infer(file).expect("accepted"), &work),
    }
    match answer {
        Recover::Recovered { length } => Ok(Some(written(instantiation, length))),
        Recover::Untyped => {
            assert!(is_untouched(&instantiation));
            Ok(None)
        }
        Recover::Refused { number } => {
            assert!(is_untouched(&instantiation));
            Err(number)
        }
    }
}

/// The length of the work space for the file, and one byte more.
fn long_enough(file: &[u8]) -> usize {
    work_length(file) + 1
}

/// Apply with slices that are long enough.
pub fn apply_to(file: &[u8], node: usize, instantiation: &[u8]) -> Result<(Vec<u8>, Vec<u8>), u8> {
    let lengths = [long_enough(file), SCHEMA_LENGTH, OUTPUT_LENGTH];
    apply_with(file, node, instantiation, lengths)
}

/// Recover with slices that are long enough.
pub fn recover_from(file: &[u8], node: usize, schema: &[u8]) -> Answer<Vec<u8>> {
    let lengths = [long_enough(file), INSTANTIATION_LENGTH];
    recover_with(file, node, schema, lengths)
}

/// Typing with a result slice of this length: the output record, none if untyped, or the
/// refusal. Asserts that all other bytes stay.
pub fn typing_with(file: &[u8], node: usize, schema: &[u8], out_length: usize) -> Answer<Vec<u8>> {
    let mut out = vec![FILL; out_length];
    let answer = typing(file, node, schema, &mut out);
    match answer {
        Typing::Typed { length } => Ok(Some(written(out, length))),
        Typing::Untyped => {
            assert!(is_untouched(&out));
            Ok(None)
        }
        Typing::Refused { number } => {
            assert!(is_untouched(&out));
            Err(number)
        }
    }
}

/// Typing with a result slice that is long enough: the output record, none if untyped.
pub fn typing_of(file: &[u8], node: usize, schema: &[u8]) -> Option<Vec<u8>> {
    typing_with(file, node, schema, OUTPUT_LENGTH).expect("not refused")
}

/// Parsing a query with a file slice of this length: the file, or the refusal. Asserts that
/// all other bytes stay.
pub fn parse_with(relations: u8, text: &[u8], file_length: usize) -> Result<Vec<u8>, u8> {
    let mut file = vec![FILL; file_length];
    match parse_query(relations, text, &mut file) {
        ParseQuery::Parsed { length } => Ok(written(file, length)),
        ParseQuery::Refused { number } => {
            assert!(is_untouched(&file));
            Err(number)
        }
    }
}

/// Parsing a query with a file slice that is long enough.
pub fn parse(relations: u8, text: &[u8]) -> Result<Vec<u8>, u8> {
    parse_with(relations, text, FILE_LENGTH)
}

/// Edit with a result slice of this length: the edited file, or the refusal. Asserts that all other
/// bytes stay.
pub fn edit_with(
    file: &[u8],
    node: usize,
    record: &[u8],
    result_length: usize,
) -> Result<Vec<u8>, u8> {
    let mut result = vec![FILL; result_length];
    match edit(file, node, record, &mut result) {
        Edit::Edited { length } => Ok(written(result, length)),
        Edit::Refused { number } => {
            assert!(is_untouched(&result));
            Err(number)
        }
    }
}

/// Edit with a result slice that is long enough.
pub fn edit_of(file: &[u8], node: usize, record: &[u8]) -> Result<Vec<u8>, u8> {
    edit_with(file, node, record, FILE_LENGTH)
}

/// Preview with a work space of this length: what is said of the last node, or the refusal. Asserts
/// that the work space has the formulas of the edited file, or stays.
pub fn preview_with(
    file: &[u8],
    node: usize,
    record: &[u8],
    work_length: usize,
) -> Result<Judgement, u8> {
    let mut work = vec![FILL; work_length];
    let judgement = match preview(file, node, record, &mut work) {
        Preview::Typable { memberships } => Ok(memberships),
        Preview::Untypable { attribute } => Err(attribute),
        Preview::Refused { number } => {
            assert!(is_untouched(&work));
            return Err(number);
        }
    };
    let edited = edit_of(file, node, record).expect("not refused");
    assert_filled(&infer(&edited).expect("accepted"), &work);
    Ok(judgement)
}

/// Preview with a work space that is long enough.
pub fn preview_of(file: &[u8], node: usize, record: &[u8]) -> Result<Judgement, u8> {
    preview_with(file, node, record, long_enough(file))
}

/// Asserts that every proper prefix of the bytes ends early, and that with bytes after them
/// some are left over.
pub fn assert_length_counts<Read: Debug + PartialEq>(
    random: &mut Random,
    bytes: &[u8],
    read: impl Fn(&[u8]) -> Result<Read, u8>,
) {
    for length in 0..bytes.len() {
        assert_eq!(read(&bytes[..length]), Err(BYTES_END_EARLY));
    }
    for length in [1, 2, 3, 513, 812, 70_000] {
        let longer = [bytes, &random.bytes(length)].concat();
        assert_eq!(read(&longer), Err(BYTES_LEFT_OVER));
    }
}
