//! Instantiations of formulas, with their images and output records.

use std::ops::Range;

use super::{example, instantiation_bytes, list, lists_of_one, Lists, Subsets, FILLED, UNFILLED};
use crate::examples::{from_hexadecimal, join_of_eight};
use crate::formula_examples::FILLED_SCHEMA;
use crate::reference::{encode_file, encode_record, encode_schema, Type};
use crate::typing_examples::{in_each_of_eight, E3_SCHEMA};

/// An instantiation of a node's formula with its image and its output record.
pub struct Instance {
    pub name: &'static str,
    pub file: Vec<u8>,
    pub node: usize,
    pub instantiation: Vec<u8>,
    pub schema: Vec<u8>,
    pub output: Vec<u8>,
}

const NO_LISTS: Lists = &[];

/// The instantiation of the schema to which E3 adds.
pub const FILLED_INSTANTIATION: &str = "\
01 02 03 04 00 00 00 00 00 00 00 00 00 00 00 \
00 00 00 00 00 00 00 00 00 00 00 00 00 00 00 00 \
00 00 00 00 00 00 00 00 00 00 00 00 00 00 00 00";

/// The instantiation of E3's schema.
pub const E3_INSTANTIATION: &str = "\
01 02 03 04 00 00 00 00 00 00 00 00 00 00 00 \
08 00 00 00 00 00 00 00 00 00 00 00 00 00 00 00 \
00 00 00 00 00 00 00 00 00 00 00 00 00 00 00 00 \
01 14 00";

/// Instantiations of the formula of an example's last node: name, example, subsets, lists,
/// image and output record.
const INSTANCES_OF_EXAMPLES: [(&str, &str, Subsets, Lists, &str, &str); 11] = [
    ("filled", "E1", FILLED, &[], FILLED_SCHEMA, "1c 00"),
    (
        "E3",
        "E1",
        FILLED,
        &[(0x03, &[20])],
        E3_SCHEMA,
        "1d 00 01 14 00",
    ),
    (
        "16 and 65,535",
        "E1",
        UNFILLED,
        &[(0x04, &[16, 65_535])],
        "0a 00 0c 00 01 00 02 10 00 ff ff",
        "0d 00 02 10 00 ff ff",
    ),
    (
        "lists that interleave",
        "E1",
        UNFILLED,
        &[
            (0x03, &[16, 300]),
            (0x04, &[17, 65_535]),
            (0x07, &[18, 256]),
        ],
        "0b 00 04 10 00 12 00 00 01 2c 01 0d 00 04 10 00 12 00 00 01 2c 01 \
         01 00 04 11 00 12 00 00 01 ff ff",
        "0d 00 06 10 00 11 00 12 00 00 01 2c 01 ff ff",
    ),
    (
        "later lists of lower attributes",
        "E1",
        UNFILLED,
        &[(0x03, &[300]), (0x04, &[200]), (0x07, &[100])],
        "0b 00 02 64 00 2c 01 0d 00 02 64 00 2c 01 01 00 02 64 00 c8 00",
        "0d 00 03 64 00 c8 00 2c 01",
    ),
    ("one attribute", "E8", &[(1, 0x01)], &[], "02 00", "00 00"),
    (
        "one ordinary attribute",
        "E8",
        &[],
        &[(0x01, &[16])],
        "01 00 01 10 00",
        "00 00",
    ),
    (
        "all is dropped",
        "E8",
        &[(1, 0x01), (15, 0x01)],
        &[(0x01, &[16, 65_535])],
        "03 80 02 10 00 ff ff",
        "00 00",
    ),
    (
        "dropped under a union",
        "E9",
        &[(1, 0x03), (2, 0x02)],
        &[(0x02, &[20])],
        "02 00 07 00 01 14 00",
        "02 00",
    ),
    (
        "attribute 1 in r0 and r3",
        "E10",
        &[(1, 0x09)],
        &[(0x02, &[16]), (0x0c, &[17])],
        "02 00 01 00 01 10 00 01 00 01 11 00 03 00 01 11 00",
        "03 00 02 10 00 11 00",
    ),
    (
        "two lists",
        "E10",
        &[(1, 0x02)],
        &[(0x09, &[16]), (0x0c, &[17])],
        "01 00 01 10 00 02 00 01 00 01 11 00 01 00 02 10 00 11 00",
        "03 00 02 10 00 11 00",
    ),
];

fn instance_of_example(
    (name, of): (&'static str, &str),
    instantiation: Vec<u8>,
    schema: &str,
    output: &str,
) -> Instance {
    let (file, node) = example(of);
    Instance {
        name,
        file,
        node,
        instantiation,
        schema: from_hexadecimal(schema),
        output: from_hexadecimal(output),
    }
}

fn instances_of_examples() -> impl Iterator<Item = Instance> {
    let greatest = [all_special(0x07), vec![(1, 0x05), (2, 0x06)]].concat();
    let with_greatest = instance_of_example(
        ("greatest subsets", "E1"),
        instantiation_bytes(&greatest, NO_LISTS),
        "fa ff fc ff fe ff",
        "fe ff",
    );
    INSTANCES_OF_EXAMPLES
        .iter()
        .map(|&(name, of, subsets, lists, schema, output)| {
            let instantiation = instantiation_bytes(subsets, lists);
            instance_of_example((name, of), instantiation, schema, output)
        })
        .chain([with_greatest])
}

/// The subset s for each special attribute.
fn all_special(s: u8) -> Vec<(usize, u8)> {
    (1..16).map(|attribute| (attribute, s)).collect()
}

/// The sets of eight relations with attributes 16 to 270, each in the relations of the
/// subset that is 15 below it.
fn images_of_lists_of_one(special: Range<u32>) -> Vec<Type> {
    let of = |relation: usize| {
        let listed = (1..256_u32)
            .filter(|s| s >> relation & 1 == 1)
            .map(|s| 15 + s);
        special.clone().chain(listed).collect()
    };
    (0..8).map(of).collect()
}

/// An instantiation for the join of eight relations, which allows every subset; the
/// output is stated as attributes.
fn instance_of_join(
    name: &'static str,
    instantiation: Vec<u8>,
    image: &[Type],
    output: Range<u32>,
) -> Instance {
    Instance {
        name,
        file: encode_file(8, &join_of_eight()),
        node: 14,
        instantiation,
        schema: encode_schema(image),
        output: encode_record(&output.collect()),
    }
}

/// Shortest and longest instantiations, schemas and output records: no list, and lists of
/// one attribute.
fn instances_of_short_lists() -> [Instance; 3] {
    [
        instance_of_join(
            "shortest, 47 bytes",
            instantiation_bytes(&[(1, 255)], NO_LISTS),
            &in_each_of_eight(1..2),
            1..2,
        ),
        instance_of_join(
            "longest, 255 lists of one attribute",
            instantiation_bytes(&[], &lists_of_one()),
            &images_of_lists_of_one(0..0),
            16..271,
        ),
        instance_of_join(
            "longest, all special in each",
            instantiation_bytes(&all_special(255), &lists_of_one()),
            &images_of_lists_of_one(1..16),
            1..271,
        ),
    ]
}

/// The same of long lists.
fn instances_of_long_lists() -> [Instance; 3] {
    let others = vec![Type::from([15]); 6];
    let two_sets = [vec![(16..270).collect()], others, vec![Type::from([270])]].concat();
    [
        instance_of_join(
            "one list of 255, longest schema",
            instantiation_bytes(&all_special(255), &[(255, list(16..271))]),
            &in_each_of_eight(1..271),
            1..271,
        ),
        instance_of_join(
            "the greatest 255 in one list",
            instantiation_bytes(&[], &[(255, list(65_281..65_536))]),
            &in_each_of_eight(65_281..65_536),
            65_281..65_536,
        ),
        instance_of_join(
            "254 and one",
            instantiation_bytes(&[(15, 0x7e)], &[(1, list(16..270)), (128, list(270..271))]),
            &two_sets,
            15..271,
        ),
    ]
}

/// Instantiations with their images: Apply gives the image, Recover the instantiation.
pub fn instances() -> Vec<Instance> {
    instances_of_examples()
        .chain(instances_of_short_lists())
        .chain(instances_of_long_lists())
        .collect()
}
