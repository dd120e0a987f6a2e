//! Calls of Apply that are refused.

use super::{
    example, instantiation_bytes, list, lists_of_one, with_faults, work_length, ApplyCase, Lists,
    Subsets, FILLED, UNFILLED,
};
use crate::examples::{e1, join_of_eight};
use crate::reference::{encode_file, OUTPUT_LENGTH, SCHEMA_LENGTH};

/// A call of Apply with slices exactly long enough that is refused.
pub(super) fn refused(
    name: impl Into<String>,
    (file, node): (Vec<u8>, usize),
    instantiation: Vec<u8>,
    refusal: u8,
) -> ApplyCase {
    ApplyCase {
        name: name.into(),
        lengths: [work_length(&file), SCHEMA_LENGTH, OUTPUT_LENGTH],
        file,
        node,
        instantiation,
        answer: Err(refusal),
    }
}

/// Lists after subsets that E1's last node allows, with the refusal for it.
const LISTS_FOR_E1: [(&str, Lists, u8); 19] = [
    ("count byte 0", &[(0x03, &[])], 15),
    (
        "count byte 0, then a list",
        &[(0x03, &[]), (0x04, &[16])],
        15,
    ),
    (
        "count byte 0, then 15 listed",
        &[(0x03, &[]), (0x04, &[15])],
        15,
    ),
    ("count byte 0 of no variable", &[(0x01, &[])], 15),
    ("15 listed", &[(0x03, &[15])], 16),
    ("0 listed", &[(0x03, &[0])], 16),
    (
        "15 listed, then count byte 0",
        &[(0x03, &[15]), (0x04, &[])],
        16,
    ),
    ("15 listed of no variable", &[(0x01, &[15])], 16),
    ("one attribute twice in a list", &[(0x03, &[20, 20])], 16),
    ("256 and 255, falling", &[(0x07, &[256, 255])], 16),
    ("65,535 and 16, falling", &[(0x07, &[65_535, 16])], 16),
    (
        "an attribute in two lists",
        &[(0x03, &[20]), (0x04, &[20])],
        19,
    ),
    (
        "an attribute in the first and the last list",
        &[(0x03, &[20, 30]), (0x04, &[25]), (0x07, &[21, 30])],
        19,
    ),
    (
        "the last of a list is the first of the next",
        &[(0x03, &[20, 30]), (0x04, &[30, 40])],
        19,
    ),
    (
        "the same list twice",
        &[(0x03, &[20, 30]), (0x07, &[20, 30])],
        19,
    ),
    ("bit 0", &[(0x00, &[20])], 20),
    ("bit 1, no variable", &[(0x01, &[20])], 20),
    ("bit 8, not below 2^m", &[(0x08, &[20])], 20),
    (
        "bit 255 after variables",
        &[(0x03, &[20]), (0x07, &[21]), (0xff, &[22])],
        20,
    ),
];

/// Subsets that are not allowed for a special attribute in E1's last node.
const SUBSETS_FOR_E1: [(&str, (usize, u8)); 8] = [
    ("attribute 1 in r1", (1, 0x02)),
    ("attribute 1 nowhere", (1, 0x00)),
    ("attribute 3 nowhere", (3, 0x00)),
    ("attribute 15 in r0", (15, 0x01)),
    ("attribute 4 in r0 and r2", (4, 0x05)),
    ("attribute 4 with 8, not below 2^m", (4, 0x08)),
    ("attribute 4 with 11, 3 but for a bit from m up", (4, 0x0b)),
    ("attribute 15 with 255", (15, 0xff)),
];

pub(super) fn refused_for_e1() -> Vec<ApplyCase> {
    let case = |name, bytes, refusal| refused(name, example("E1"), bytes, refusal);
    let lists = LISTS_FOR_E1
        .iter()
        .map(|&(name, lists, refusal)| case(name, instantiation_bytes(FILLED, lists), refusal));
    let subsets = SUBSETS_FOR_E1.iter().map(|&(name, subset)| {
        let subsets = [FILLED, &[subset]].concat();
        case(name, instantiation_bytes(&subsets, &[(0x03, [20])]), 21)
    });
    lists.chain(subsets).collect()
}

/// The front of an instantiation with two lists, so many bytes of it, with the refusal for
/// E1's last node.
pub(super) fn cut_for_e1() -> Vec<ApplyCase> {
    let whole = instantiation_bytes(FILLED, &[(0x03, [20, 30]), (0x07, [10, 21])]);
    [
        ("no bytes", 0, 14),
        ("one byte", 1, 14),
        ("14 subsets", 14, 14),
        ("subsets alone", 15, 14),
        ("one byte of the map", 16, 14),
        ("all but the last byte of the map", 46, 14),
        ("no count byte", 47, 14),
        ("no listed attribute", 48, 14),
        ("half a listed attribute", 49, 14),
        ("one of two listed attributes", 50, 14),
        ("no count byte of the second list", 52, 14),
        ("half an attribute, below 16 so far", 54, 14),
        ("10 in the second list, then the end", 55, 16),
    ]
    .into_iter()
    .map(|(name, length, refusal)| refused(name, example("E1"), whole[..length].to_vec(), refusal))
    .collect()
}

/// Counts of attributes over many lists, for the join of eight relations.
pub(super) fn refused_for_join() -> Vec<ApplyCase> {
    let case = |name, lists: &[(usize, Vec<u16>)], refusal| {
        let file = encode_file(8, &join_of_eight());
        refused(name, (file, 14), instantiation_bytes(&[], lists), refusal)
    };
    let with = |s: usize, attribute: u16| {
        let mut lists = lists_of_one();
        lists.retain(|(other, _)| *other != s);
        lists.push((s, vec![attribute]));
        lists.sort();
        lists
    };
    let mut with_271 = lists_of_one();
    with_271[254].1.push(271);
    let mut with_16_too = lists_of_one();
    with_16_too[254].1.insert(0, 16);
    let all_full: Vec<(usize, Vec<u16>)> = (0..256)
        .map(|s| (s, list(16 + 255 * s as u32..271 + 255 * s as u32)))
        .collect();
    let full_with = |attribute: u16| {
        let mut lists = all_full.clone();
        lists[255].1[0] = attribute;
        lists
    };
    vec![
        case("256 in 255 lists", &with_271, 18),
        case("255 and one", &[(1, list(16..271)), (2, vec![271])], 18),
        case("one and 255", &[(1, vec![271]), (255, list(16..271))], 18),
        case("255 lists and that of bit 0", &with(0, 271), 18),
        case("256 listed, 255 different", &with_16_too, 19),
        case("the first and the last list the same", &with(255, 16), 19),
        case("the list of bit 0 and the last the same", &with(0, 270), 19),
        case("254 lists and that of bit 0", &with(0, 271)[..255], 20),
        case("256 lists of 255, all different", &all_full, 18),
        case("the same, the first attribute twice", &full_with(16), 19),
        case("the same, a late one twice", &full_with(65_040), 19),
    ]
}

/// Examples with subsets and lists and the refusal for the last node. Nothing types E5's
/// and E6's, and E7's has no type variable.
const REFUSED_FOR_EXAMPLES: [(&str, Subsets, Lists, u8); 22] = [
    ("E1", UNFILLED, &[], 26),
    ("E1", UNFILLED, &[(0x03, &[20])], 26),
    ("E1", UNFILLED, &[(0x03, &[20]), (0x05, &[21])], 20),
    ("E7", &[], &[], 26),
    ("E8", &[], &[], 26),
    ("E8", &[], &[(0x02, &[16])], 20),
    ("E8", &[(1, 2)], &[], 21),
    ("E10", &[(1, 0x02)], &[], 26),
    ("E10", &[(1, 0x09)], &[(0x02, &[16])], 26),
    ("E10", &[(1, 0x0b)], &[], 26),
    ("E5", &[(1, 1), (2, 1), (3, 1)], &[], 21),
    ("E5", &[(2, 1), (3, 1)], &[(1, &[20])], 21),
    ("E5", &[(2, 1), (3, 1)], &[(2, &[20])], 20),
    ("E6", &[(1, 1)], &[(1, &[20])], 21),
    ("E6", &[], &[], 21),
    ("E7", &[], &[(1, &[20])], 20),
    ("E7", &[(15, 1)], &[], 21),
    ("E7", &[(15, 1)], &[(1, &[20])], 20),
    ("E9", &[(1, 3)], &[(1, &[20])], 20),
    ("E9", &[(1, 3)], &[(3, &[20])], 20),
    ("E9", &[(1, 3), (2, 3)], &[], 21),
    ("E9", &[(1, 2)], &[], 21),
];

pub(super) fn refused_for_examples() -> impl Iterator<Item = ApplyCase> {
    REFUSED_FOR_EXAMPLES
        .iter()
        .map(|&(name, subsets, lists, refusal)| {
            let bytes = instantiation_bytes(subsets, lists);
            refused(name, example(name), bytes, refusal)
        })
}

/// The join of eight relations with one of them in no subset, one subset or list at a time.
pub(super) fn emptied_for_join() -> Vec<ApplyCase> {
    let mut cases = Vec::new();
    for relation in 0..8 {
        let others = 0xff ^ 1 << relation;
        for (attribute, lists) in [
            (1, vec![]),
            (15, vec![]),
            (8, vec![(usize::from(others), [16])]),
        ] {
            let file = encode_file(8, &join_of_eight());
            let bytes = instantiation_bytes(&[(attribute, others)], &lists);
            let name = format!("r{relation} has no attribute");
            cases.push(refused(name, (file, 14), bytes, 26));
        }
    }
    cases
}

/// Calls of Apply for E1: name, node, the fault of the instantiation or 0, lengths of the
/// slices, refusal.
const CALLS_OF_APPLY: [(&str, usize, u8, [usize; 3], u8); 20] = [
    ("11 before 12 to 14", 7, 14, [0, 0, 0], 11),
    ("node 64", 64, 0, [7_168, 4_104, 513], 11),
    ("node 262", 262, 0, [7_168, 4_104, 513], 11),
    ("greatest number", usize::MAX, 0, [7_168, 4_104, 513], 11),
    ("12 before 13, 14", 6, 14, [7_167, 0, 0], 12),
    ("12 before 13", 6, 0, [7_167, 4_103, 513], 12),
    ("12 alone", 6, 0, [7_167, 4_104, 513], 12),
    ("12 before 21", 6, 21, [0, 4_104, 513], 12),
    ("12 for node 0 too", 0, 0, [1_024, 4_104, 513], 12),
    ("13 by the schema", 6, 0, [7_168, 4_103, 513], 13),
    ("13 by the result slice", 6, 0, [7_168, 4_104, 512], 13),
    ("13 by both", 6, 0, [7_168, 4_103, 512], 13),
    ("13 before 14, schema", 6, 14, [7_168, 0, 513], 13),
    ("13 before 14, result slice", 6, 14, [7_168, 4_104, 0], 13),
    ("13 before 17", 6, 17, [7_168, 4_103, 513], 13),
    ("13 before 19", 6, 19, [7_168, 4_104, 512], 13),
    ("13 before 20", 6, 20, [7_168, 4_103, 513], 13),
    ("13 before 21", 6, 21, [7_168, 4_104, 512], 13),
    ("12 before 26", 6, 26, [7_167, 4_104, 513], 12),
    ("13 before 26", 6, 26, [7_168, 4_104, 512], 13),
];

pub(super) fn calls_of_apply() -> impl Iterator<Item = ApplyCase> {
    let with_byte_after = ApplyCase {
        name: "10 before 11 to 14".into(),
        file: [&e1().bytes[..], &[0]].concat(),
        node: 7,
        instantiation: Vec::new(),
        lengths: [0; 3],
        answer: Err(10),
    };
    CALLS_OF_APPLY
        .iter()
        .map(|&(name, node, fault, lengths, refusal)| ApplyCase {
            name: name.into(),
            file: e1().bytes,
            node,
            instantiation: with_faults(&[fault], 0x00),
            lengths,
            answer: Err(refusal),
        })
        .chain([with_byte_after])
}
