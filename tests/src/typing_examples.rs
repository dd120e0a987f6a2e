//! Calls of Typing with their answers: examples, edges and orders of documents 01 and 02.

use std::ops::Range;

use crate::examples::{e1, from_hexadecimal, join_of_eight};
use crate::formula_examples::{formula_examples, E2_SCHEMA, FILLED_SCHEMA};
use crate::reference::{
    encode_file, encode_record, encode_schema, read_schema, Type, OUTPUT_LENGTH,
};

/// The output record, none if untyped, or the first refusal.
pub type Answer<Record> = Result<Option<Record>, u8>;

/// A call of Typing with its answer.
pub struct TypingCase {
    pub name: &'static str,
    pub file: Vec<u8>,
    pub node: usize,
    pub schema: Vec<u8>,
    pub out_length: usize,
    pub answer: Answer<Vec<u8>>,
}

/// E2's schema with 4 in r2, and with 20 added to r0 and r1.
pub const E3_SCHEMA: &str = "0b 00 01 14 00 0d 00 01 14 00 10 00";
/// E2's schema with 4 in r2, and with 20 added to r0 only.
pub const E4_SCHEMA: &str = "0b 00 01 14 00 0c 00 10 00";

/// A call for E1's last node; schema and output record as hexadecimal pairs.
fn e1_case(name: &'static str, schema: &str, answer: Answer<&str>) -> TypingCase {
    TypingCase {
        name,
        file: e1().bytes,
        node: 6,
        schema: from_hexadecimal(schema),
        out_length: OUTPUT_LENGTH,
        answer: answer.map(|output| output.map(from_hexadecimal)),
    }
}

/// E2, E3 and E4, which are about E1's last node.
pub fn e2_to_e4() -> [TypingCase; 3] {
    [
        e1_case("E2", E2_SCHEMA, Err(25)),
        e1_case("E3", E3_SCHEMA, Ok(Some("1d 00 01 14 00"))),
        e1_case("E4", E4_SCHEMA, Ok(None)),
    ]
}

/// The other typings of the examples' last nodes.
fn typings_of_examples() -> Vec<TypingCase> {
    let mut cases = Vec::new();
    for example in formula_examples() {
        cases.extend(example.typings.iter().map(|&(schema, output)| TypingCase {
            name: example.name,
            file: example.bytes(),
            node: example.last(),
            schema: from_hexadecimal(schema),
            out_length: OUTPUT_LENGTH,
            answer: Ok(output.map(from_hexadecimal)),
        }));
    }
    cases
}

/// Schemas for E1 at the edges, with the answers for its last node.
const SCHEMAS_FOR_E1: [(&str, &str, Answer<&str>); 32] = [
    (
        "16 listed",
        "0a 00 0c 00 01 00 01 10 00",
        Ok(Some("0d 00 01 10 00")),
    ),
    (
        "65,535 listed",
        "0a 00 0c 00 01 00 01 ff ff",
        Ok(Some("0d 00 01 ff ff")),
    ),
    (
        "255 and 256, low byte first",
        "0a 00 0c 00 01 00 02 ff 00 00 01",
        Ok(Some("0d 00 02 ff 00 00 01")),
    ),
    (
        "16 and 65,535",
        "0a 00 0c 00 01 00 02 10 00 ff ff",
        Ok(Some("0d 00 02 10 00 ff ff")),
    ),
    ("no bytes", "", Err(14)),
    ("half a map", "0a", Err(14)),
    ("one record", "0a 00", Err(14)),
    ("half a map of the last record", "0a 00 0c 00 00", Err(14)),
    ("no count byte", "0a 00 0c 00 01 00", Err(14)),
    ("no listed attribute", "0a 00 0c 00 01 00 01", Err(14)),
    (
        "half a listed attribute, below 16 so far",
        "0a 00 0c 00 01 00 01 0f",
        Err(14),
    ),
    (
        "one of two listed attributes",
        "0a 00 0c 00 01 00 02 14 00",
        Err(14),
    ),
    (
        "one of 255 listed attributes",
        "0a 00 0c 00 01 00 ff 14 00",
        Err(14),
    ),
    ("count byte 0", "0a 00 0c 00 01 00 00", Err(15)),
    (
        "count byte 0 and two bytes",
        "0a 00 0c 00 01 00 00 14 00",
        Err(15),
    ),
    ("count byte 0, then the end", "01 00 00", Err(15)),
    (
        "count byte 0, then 15 listed",
        "01 00 00 01 00 01 0f 00 00 00",
        Err(15),
    ),
    (
        "count byte 0 and a byte after",
        "0a 00 0c 00 01 00 00 ff",
        Err(15),
    ),
    ("15 listed", "0a 00 0c 00 01 00 01 0f 00", Err(16)),
    ("0 listed", "0a 00 0c 00 01 00 01 00 00", Err(16)),
    (
        "one attribute listed twice",
        "0a 00 0c 00 01 00 02 14 00 14 00",
        Err(16),
    ),
    (
        "256 and 255, falling",
        "0a 00 0c 00 01 00 02 00 01 ff 00",
        Err(16),
    ),
    (
        "65,535 and 16, falling",
        "0a 00 0c 00 01 00 02 ff ff 10 00",
        Err(16),
    ),
    ("15 listed, then the end", "01 00 02 0f 00", Err(16)),
    ("falling, then the end", "01 00 03 14 00 13 00", Err(16)),
    (
        "15 listed, then count byte 0",
        "01 00 01 0f 00 01 00 00 00 00",
        Err(16),
    ),
    (
        "15 listed and a byte after",
        "0a 00 0c 00 01 00 01 0f 00 00",
        Err(16),
    ),
    ("one byte left over", "0a 00 0c 00 00 00 00", Err(17)),
    ("a record left over", "0a 00 0c 00 00 00 00 00", Err(17)),
    (
        "one byte left over, untyped",
        "00 00 00 00 00 00 00",
        Err(17),
    ),
    (
        "bytes left over that are no record",
        "0a 00 0c 00 00 00 01 00 00",
        Err(17),
    ),
    (
        "one byte left over after a list",
        "0a 00 0c 00 01 00 01 14 00 15",
        Err(17),
    ),
];

fn schemas_for_e1() -> impl Iterator<Item = TypingCase> {
    SCHEMAS_FOR_E1
        .iter()
        .map(|&(name, schema, answer)| e1_case(name, schema, answer))
}

/// Nodes of E1 with the output record under E4's schema, none if untyped: only the
/// rules in a node's own expression count.
const NODES_UNDER_E4: [(&str, usize, Option<&str>); 7] = [
    ("E4, r0", 0, Some("0b 00 01 14 00")),
    ("E4, renaming", 1, Some("0d 00 01 14 00")),
    ("E4, r1", 2, Some("0c 00")),
    ("E4, union", 3, None),
    ("E4, r2", 4, Some("10 00")),
    ("E4, join", 5, None),
    ("E4, selection", 6, None),
];

fn nodes_under_e4() -> impl Iterator<Item = TypingCase> {
    NODES_UNDER_E4
        .iter()
        .map(|&(name, node, output)| TypingCase {
            node,
            ..e1_case(name, E4_SCHEMA, Ok(output))
        })
}

/// Calls for E1 with a schema that types it or another one: name, bytes after the file, node, schema,
/// length of the result slice, answer.
type Call = (
    &'static str,
    &'static [u8],
    usize,
    &'static str,
    usize,
    Answer<&'static str>,
);

const CALLS_FOR_E1: [Call; 13] = [
    ("10 before 11, 13, 14", &[0], 7, "", 0, Err(10)),
    ("11 before 13, 14", &[], 7, "", 0, Err(11)),
    ("node 64", &[], 64, FILLED_SCHEMA, 513, Err(11)),
    ("node 262", &[], 262, FILLED_SCHEMA, 513, Err(11)),
    (
        "greatest number",
        &[],
        usize::MAX,
        FILLED_SCHEMA,
        513,
        Err(11),
    ),
    ("13 before 14", &[], 6, "", 512, Err(13)),
    ("13 before 15", &[], 6, "01 00 00", 0, Err(13)),
    ("13 before 16", &[], 6, "01 00 01 0f 00", 512, Err(13)),
    ("13 before 17", &[], 6, "00 00 00 00 00 00 00", 512, Err(13)),
    ("13 before untyped", &[], 6, E4_SCHEMA, 512, Err(13)),
    ("13 before 25", &[], 6, E2_SCHEMA, 512, Err(13)),
    ("13 before typed", &[], 6, FILLED_SCHEMA, 2, Err(13)),
    ("514 bytes", &[], 6, FILLED_SCHEMA, 514, Ok(Some("1c 00"))),
];

fn calls_for_e1() -> impl Iterator<Item = TypingCase> {
    CALLS_FOR_E1.iter().map(
        |&(name, after, node, schema, out_length, answer)| TypingCase {
            file: [&e1().bytes[..], after].concat(),
            node,
            out_length,
            ..e1_case(name, schema, answer)
        },
    )
}

/// The sets of eight relations with these attributes in turn: the one at place i is in
/// relation i mod 8.
pub fn spread_over_eight(attributes: Range<u32>) -> Vec<Type> {
    let mut schema = vec![Type::new(); 8];
    for (place, attribute) in attributes.enumerate() {
        schema[place % 8].insert(attribute);
    }
    schema
}

/// Eight sets, each with all these attributes.
pub fn in_each_of_eight(attributes: Range<u32>) -> Vec<Type> {
    vec![attributes.collect(); 8]
}

/// Eight sets with attribute 15, the first and the last with these attributes too.
fn in_first_and_last(first: Range<u32>, last: Range<u32>) -> Vec<Type> {
    let mut schema = vec![Type::from([15]); 8];
    schema[0].extend(first);
    schema[7].extend(last);
    schema
}

/// A call for the join of eight relations; the output is stated as attributes.
fn join_case(name: &'static str, schema: Vec<u8>, answer: Result<Range<u32>, u8>) -> TypingCase {
    TypingCase {
        name,
        file: encode_file(8, &join_of_eight()),
        node: 14,
        schema,
        out_length: OUTPUT_LENGTH,
        answer: answer.map(|attributes| Some(encode_record(&attributes.collect()))),
    }
}

/// The sets of eight relations, with the attributes in their join or the refusal.
type Joined = (&'static str, Vec<Type>, Result<Range<u32>, u8>);

/// Ordinary attributes in a few relations. There are 255 from 16 to 270.
fn in_some_relations() -> [Joined; 7] {
    let some = in_first_and_last;
    let spread = spread_over_eight;
    [
        ("255 in r0", some(16..271, 0..0), Ok(15..271)),
        ("255 in r0 and r7", some(16..270, 270..271), Ok(15..271)),
        ("256 in r0 and r7", some(16..271, 271..272), Err(18)),
        ("510 in r0 and r7", some(16..271, 271..526), Err(18)),
        ("255 spread over eight", spread(16..271), Ok(16..271)),
        ("256 spread over eight", spread(16..272), Err(18)),
        ("2,040 spread over eight", spread(16..2_056), Err(18)),
    ]
}

/// Ordinary attributes in each relation, and special ones too.
fn in_each_relation_or_with_special() -> [Joined; 6] {
    let (each, spread) = (in_each_of_eight, spread_over_eight);
    let greatest = 65_281..65_536;
    [
        ("255 in each of eight", each(16..271), Ok(16..271)),
        (
            "the greatest 255 in each of eight",
            each(greatest.clone()),
            Ok(greatest),
        ),
        (
            "all special and 255 in each of eight",
            each(1..271),
            Ok(1..271),
        ),
        (
            "all special and 255 spread over eight",
            spread(1..271),
            Ok(1..271),
        ),
        (
            "all special and 256 spread over eight",
            spread(1..272),
            Err(18),
        ),
        ("eight empty records", each(0..0), Err(25)),
    ]
}

fn schemas_for_join_of_eight() -> impl Iterator<Item = TypingCase> {
    let all = in_some_relations().into_iter();
    all.chain(in_each_relation_or_with_special())
        .map(|(name, sets, answer)| join_case(name, encode_schema(&sets), answer))
}

/// The same with bytes cut off, changed or added at the end: 18 comes last.
fn changed_schemas_for_join_of_eight() -> Vec<TypingCase> {
    let with_256 = encode_schema(&spread_over_eight(16..272));
    let longest = encode_schema(&in_each_of_eight(1..271));
    let but_last =
        |bytes: &[u8], count: usize, after: &[u8]| [&bytes[..bytes.len() - count], after].concat();
    vec![
        join_case("256, one byte cut", but_last(&with_256, 1, &[]), Err(14)),
        join_case("256, count byte 0", but_last(&with_256, 65, &[0]), Err(15)),
        join_case(
            "256, the last below 16",
            but_last(&with_256, 2, &[15, 0]),
            Err(16),
        ),
        join_case(
            "256 and one byte left over",
            but_last(&with_256, 0, &[0]),
            Err(17),
        ),
        join_case(
            "longest and one byte left over",
            but_last(&longest, 0, &[0]),
            Err(17),
        ),
        join_case("longest, one byte cut", but_last(&longest, 1, &[]), Err(14)),
        join_case("15 bytes for eight records", vec![0; 15], Err(14)),
        join_case("nine empty records", vec![0; 18], Err(17)),
    ]
}

/// An empty record at each place, or at all but one, of a schema of E1 that its last node is typed
/// or not typed under: the answer is the same for each node.
fn empty_records_for_e1() -> Vec<TypingCase> {
    let mut cases = Vec::new();
    for schema in [FILLED_SCHEMA, E3_SCHEMA, E4_SCHEMA, "02 00 04 00 08 00"] {
        for place in 0..3 {
            for is_alone in [true, false] {
                let mut sets = read_schema(3, &from_hexadecimal(schema)).expect("filled");
                let others = (0..3).filter(|&other| (other == place) == is_alone);
                others.for_each(|other| sets[other].clear());
                let of_node = |node| TypingCase {
                    node,
                    schema: encode_schema(&sets),
                    ..e1_case("an empty record", schema, Err(25))
                };
                cases.extend((0..7).map(of_node));
            }
        }
    }
    cases
}

/// Eight sets of which one is empty, and faults that come before that: over 255 attributes, bytes
/// left over, and a record that is cut, has count byte 0 or lists 15.
fn empty_records_for_join_of_eight() -> Vec<TypingCase> {
    let mut cases = Vec::new();
    for place in 0..8 {
        let emptied = |mut sets: Vec<Type>| {
            sets[place].clear();
            encode_schema(&sets)
        };
        let (each, spread) = (in_each_of_eight, spread_over_eight);
        for (name, attributes) in [("special", 1..16), ("ordinary", 16..17), ("255", 16..271)] {
            cases.push(join_case(name, emptied(each(attributes)), Err(25)));
        }
        cases.push(join_case("255 spread", emptied(spread(16..271)), Err(25)));
        cases.push(join_case("300 spread", emptied(spread(16..316)), Err(18)));
        let special = emptied(each(1..2));
        let with = |bytes: &[u8]| [&special[..], bytes].concat();
        let front = |bytes: &[u8]| [&special[..14], bytes].concat();
        cases.extend([
            join_case("a byte left over", with(&[0]), Err(17)),
            join_case("an empty record left over", with(&[0, 0]), Err(17)),
            join_case("a byte cut", special[..15].to_vec(), Err(14)),
            join_case("count byte 0", front(&[1, 0, 0]), Err(15)),
            join_case("15 listed", front(&[1, 0, 1, 15, 0]), Err(16)),
            join_case("no list", front(&[1, 0]), Err(14)),
        ]);
    }
    cases
}

/// All calls of known answers.
pub fn typing_cases() -> Vec<TypingCase> {
    e2_to_e4()
        .into_iter()
        .chain(typings_of_examples())
        .chain(schemas_for_e1())
        .chain(nodes_under_e4())
        .chain(calls_for_e1())
        .chain(schemas_for_join_of_eight())
        .chain(changed_schemas_for_join_of_eight())
        .chain(empty_records_for_e1())
        .chain(empty_records_for_join_of_eight())
        .collect()
}
