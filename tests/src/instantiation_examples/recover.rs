//! Calls of Recover with their answers.

use super::{instances, work_length, RecoverCase};
use crate::examples::{e1, from_hexadecimal};
use crate::formula_examples::{E2_SCHEMA, FILLED_SCHEMA};
use crate::reference::INSTANTIATION_LENGTH;
use crate::typing_examples::{typing_cases, E4_SCHEMA};

/// Calls of Recover for E1: name, node, schema, lengths of the slices, refusal.
const CALLS_OF_RECOVER: [(&str, usize, &str, [usize; 2], u8); 13] = [
    ("11 before 12 to 14", 7, "", [0, 0], 11),
    (
        "greatest number",
        usize::MAX,
        FILLED_SCHEMA,
        [7_168, 812],
        11,
    ),
    ("12 before 13, 14", 6, "", [7_167, 0], 12),
    ("12 before 13", 6, FILLED_SCHEMA, [7_167, 811], 12),
    ("12 before untyped", 6, E4_SCHEMA, [7_167, 812], 12),
    ("12 for node 0 too", 0, FILLED_SCHEMA, [1_024, 812], 12),
    ("13 before 14", 6, "", [7_168, 811], 13),
    ("13 before 15", 6, "01 00 00", [7_168, 0], 13),
    ("13 before 16", 6, "01 00 01 0f 00", [7_168, 811], 13),
    ("13 before untyped", 6, E4_SCHEMA, [7_168, 811], 13),
    ("12 before 25", 6, E2_SCHEMA, [7_167, 812], 12),
    ("13 before 25", 6, E2_SCHEMA, [7_168, 811], 13),
    ("13 before typed", 6, FILLED_SCHEMA, [7_168, 47], 13),
];

fn calls_of_recover() -> impl Iterator<Item = RecoverCase> {
    let with_byte_after = RecoverCase {
        name: "10 before 11 to 14".into(),
        file: [&e1().bytes[..], &[0]].concat(),
        node: 7,
        schema: Vec::new(),
        lengths: [0; 2],
        answer: Err(10),
    };
    CALLS_OF_RECOVER
        .iter()
        .map(|&(name, node, schema, lengths, refusal)| RecoverCase {
            name: name.into(),
            file: e1().bytes,
            node,
            schema: from_hexadecimal(schema),
            lengths,
            answer: Err(refusal),
        })
        .chain([with_byte_after])
}

/// The calls of Typing that it refuses for another reason than 13, or where it says
/// untyped: Recover has the same answer.
fn as_typing_says() -> impl Iterator<Item = RecoverCase> {
    typing_cases().into_iter().filter_map(|case| {
        let answer = match case.answer {
            Ok(Some(_)) | Err(13) => return None,
            Ok(None) => Ok(None),
            Err(refusal) => Err(refusal),
        };
        Some(RecoverCase {
            name: case.name.into(),
            lengths: [work_length(&case.file), INSTANTIATION_LENGTH],
            file: case.file,
            node: case.node,
            schema: case.schema,
            answer,
        })
    })
}

/// All calls of Recover of known answers.
pub fn recover_cases() -> Vec<RecoverCase> {
    let recovered = instances().into_iter().map(|instance| RecoverCase {
        name: instance.name.into(),
        lengths: [work_length(&instance.file), INSTANTIATION_LENGTH],
        file: instance.file,
        node: instance.node,
        schema: instance.schema,
        answer: Ok(Some(instance.instantiation)),
    });
    recovered
        .chain(as_typing_says())
        .chain(calls_of_recover())
        .collect()
}
