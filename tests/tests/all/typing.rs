//! The engine against the reference: Typing.

use type_formula_tests::answer::{Operation, NO_TYPE, RESULT};
use type_formula_tests::engine::{self, UNTYPED};
use type_formula_tests::examples::{
    cases, e1, from_hexadecimal, join_of_eight, pairs_of_the_node_before, smallest_files,
    three_subsets, to_hexadecimal,
};
use type_formula_tests::extreme_inputs::{extreme_assignments, join_input, join_of_64_nodes};
use type_formula_tests::formula_examples::FILLED_SCHEMA;
use type_formula_tests::pseudorandom::Random;
use type_formula_tests::random_covers::FileKind;
use type_formula_tests::random_instantiations::MOST_IN_DISTURBED;
use type_formula_tests::reference::{
    assignment_of, encode_file, encode_schema, infer, read_schema, untypable_attribute, witness,
    Type, Typing, SCHEMA_LENGTH,
};
use type_formula_tests::test_run::TestRun;
use type_formula_tests::typing_examples::{
    e2_to_e4, in_each_of_eight, spread_over_eight, typing_cases, TypingCase, E3_SCHEMA,
};

/// The least number of comparisons of each test.
const IN_CASES: u64 = 11_000;
const IN_NEAR_SCHEMAS: u64 = 80_000;
const IN_EVERY_NODE: u64 = 30_000;
const IN_NEAR_WITNESSES: u64 = 30_000;
const IN_ALL_SMALLEST_FILES: u64 = 370_000;
const IN_PREFIXES: u64 = 40_000;
const IN_CHANGES: u64 = 9_900;
const IN_DISTURBED_SCHEMAS: u64 = 90_000;
const IN_EXTREMES: u64 = 44_000;
const IN_DISTURBED_FILES: u64 = 180_000;
const IN_RANDOM_BYTES: u64 = 120_000;

/// The intended number of comparisons in all.
const _: () = assert!(
    IN_CASES
        + IN_NEAR_SCHEMAS
        + IN_EVERY_NODE
        + IN_NEAR_WITNESSES
        + IN_ALL_SMALLEST_FILES
        + IN_PREFIXES
        + IN_CHANGES
        + IN_DISTURBED_SCHEMAS
        + IN_EXTREMES
        + IN_DISTURBED_FILES
        + IN_RANDOM_BYTES
        >= 900_000
);

/// A run with random slices and values before each call.
fn test_run() -> TestRun {
    TestRun::new(70)
}

/// A file with an instantiation's image for one of its nodes, most often for the
/// strictest typable one.
fn file_with_image(random: &mut Random, relations: u8, count: u8) -> (Vec<u8>, usize, Vec<Type>) {
    let (input, node, instantiation) =
        random.file_with_instantiation(relations, count, MOST_IN_DISTURBED);
    (input.bytes, node, instantiation.image(relations))
}

/// Asserts a case's answer of the engine, without the reference.
fn assert_case(case: &TypingCase) {
    let name = case.name;
    let (mut out, mut value) = (vec![0x55; case.out_length], 77);
    let answer = engine::typing(&case.file, case.node, &case.schema, &mut out, &mut value);
    let written: &[u8] = match &case.answer {
        Ok(Some(output)) => {
            assert_eq!((answer, value), (0, output.len()), "{name}");
            output
        }
        Ok(None) => {
            assert_eq!((answer, value), (UNTYPED, 77), "{name}");
            &[]
        }
        Err(refusal) => {
            assert_eq!((answer, value), (*refusal, 77), "{name}");
            &[]
        }
    };
    let (front, rest) = out.split_at(written.len());
    assert!(front == written, "{name}: {}", to_hexadecimal(front));
    assert!(rest.iter().all(|&byte| byte == 0x55), "{name}");
}

#[test]
fn e1_is_typed_as_e2_to_e4_say() {
    for case in e2_to_e4() {
        assert_case(&case);
    }
}

#[test]
fn examples_and_edges_have_their_answers() {
    let mut run = test_run();
    for case in typing_cases() {
        assert_case(&case);
        run.typing_with_every_length(&case.file, &case.schema);
    }
    run.assert_answers([0, 10, 11, 13, 14, 15, 16, 17, 18, 25], 5);
    run.finish("examples and edges", IN_CASES);
}

/// Slices of no bytes whose pointers lead nowhere.
#[test]
fn empty_slices_are_refused() {
    let mut value = 77;
    let mut typing = |file: &[u8], out: &mut [u8]| engine::typing(file, 0, &[], out, &mut value);
    assert_eq!(typing(&[], &mut []), 1);
    assert_eq!(typing(&e1().bytes, &mut []), 13);
    assert_eq!(typing(&e1().bytes, &mut [0x55; 513]), 14);
    assert_eq!(value, 77);
}

/// Images of instantiations, and such with attributes added, dropped or moved.
#[test]
fn random_schemas_near_typed_ones() {
    let mut random = Random::new(71);
    let mut run = test_run();
    for round in 0..15_000 {
        let relations = random.between(1, 8);
        let count = random.between(1, if round % 16 == 0 { 64 } else { 16 });
        let (bytes, node, image) = file_with_image(&mut random, relations, count);
        if run.typing_by_sets(&bytes, node, &image) == Typing::Untyped {
            continue;
        }
        for steps in [1, 1, 1, 2, 4] {
            let mut sets = image.clone();
            for _ in 0..steps {
                random.disturb_assignment(&mut sets);
            }
            run.typing_by_sets(&bytes, node, &sets);
        }
    }
    run.assert_both(Operation::Typing);
    run.finish("near schemas", IN_NEAR_SCHEMAS);
}

/// Images of instantiations of one node's formula, for every node.
#[test]
fn every_node_under_one_schema() {
    let mut random = Random::new(78);
    let mut run = test_run();
    for _ in 0..4_000 {
        let (relations, count) = (random.between(1, 8), random.between(1, 16));
        let (bytes, _, image) = file_with_image(&mut random, relations, count);
        for node in 0..usize::from(count) {
            run.typing_by_sets(&bytes, node, &image);
        }
    }
    run.assert_both(Operation::Typing);
    run.finish("every node", IN_EVERY_NODE);
}

/// Witnesses of last nodes, and such with attributes added, dropped or moved.
#[test]
fn random_schemas_near_witnesses() {
    let mut random = Random::new(72);
    let mut run = test_run();
    for round in 0..10_000 {
        let (relations, count) = (random.between(1, 8), random.between(4, 20));
        let bytes = match round % 2 {
            0 => random.mild_file(relations, count),
            _ => random.file_of_kind(FileKind::ALL[round % FileKind::ALL.len()], relations),
        };
        let formulas = infer(&bytes).expect("accepted").formulas;
        let node = formulas.len() - 1;
        if untypable_attribute(&formulas[node], relations).is_some() {
            continue;
        }
        let (witness, _) = witness(&formulas[node], relations).expect("typable");
        let typing = run.typing_by_schema(&bytes, node, &witness);
        assert!(matches!(typing, Typing::Typed { .. }));
        for steps in [1, 2, 3, 4] {
            let mut sets = read_schema(relations, &witness).expect("a schema");
            for _ in 0..steps {
                random.disturb_assignment(&mut sets);
            }
            run.typing_by_sets(&bytes, node, &sets);
        }
    }
    run.assert_both(Operation::Typing);
    run.finish("near witnesses", IN_NEAR_WITNESSES);
}

/// Every assignment of attributes 1, 2 and 16 to the relations, for every node.
#[test]
fn all_smallest_files_with_all_small_schemas() {
    let mut run = test_run();
    for bytes in smallest_files() {
        let relations = bytes[0];
        for [first, second, third] in three_subsets(relations) {
            let sets = assignment_of(relations, [(1, first), (2, second), (16, third)]);
            let schema = encode_schema(&sets);
            for node in 0..usize::from(bytes[1]) {
                run.typing_by_schema(&bytes, node, &schema);
            }
        }
    }
    run.assert_both(Operation::Typing);
    run.finish("all smallest files", IN_ALL_SMALLEST_FILES);
}

/// The bytes beyond the prefix are those of the whole schema, so an engine that read
/// past the length given to it would type the node.
#[test]
fn every_prefix_of_schemas_and_longer_ones() {
    let mut random = Random::new(73);
    let joined = encode_file(8, &join_of_eight());
    let mut inputs = vec![
        (joined.clone(), 14, in_each_of_eight(1..271)),
        (joined.clone(), 14, spread_over_eight(1..271)),
        (joined, 14, spread_over_eight(1..272)),
    ];
    inputs.extend((0..400).map(|_| {
        let (relations, count) = (random.between(1, 8), random.between(1, 8));
        file_with_image(&mut random, relations, count)
    }));
    let mut run = test_run();
    for (bytes, node, sets) in inputs {
        let schema = encode_schema(&sets);
        for length in 0..schema.len() {
            let typing = run.typing_by_schema(&bytes, node, &schema[..length]);
            assert_eq!(typing, Typing::Refused { number: 14 });
        }
        for length in [1, 2, 3, 4, 513, SCHEMA_LENGTH, 70_000] {
            let longer = [&schema[..], &random.likely_bytes(length)].concat();
            let typing = run.typing_by_schema(&bytes, node, &longer);
            assert_eq!(typing, Typing::Refused { number: 17 });
        }
        run.typing_by_schema(&bytes, node, &schema);
    }
    run.assert_answers([14, 17], 1_000);
    run.finish("prefixes of schemas", IN_PREFIXES);
}

/// Every value of every byte of a few schemas.
#[test]
fn every_change_of_one_byte_of_schemas() {
    let mut run = test_run();
    for schema in [
        FILLED_SCHEMA,
        E3_SCHEMA,
        "0b 00 02 14 00 00 01 0d 00 02 14 00 00 01 01 00 02 ff 00 00 01",
    ] {
        let schema = from_hexadecimal(schema);
        for place in 0..schema.len() {
            for value in 0..=255 {
                let mut changed = schema.clone();
                changed[place] = value;
                run.typing_by_schema(&e1().bytes, 6, &changed);
            }
        }
    }
    run.assert_answers([0, 14, 16, 17], 100);
    run.assert_answers([15, 25], 1);
    run.finish("changes of one byte", IN_CHANGES);
}

/// One schema in sixteen has about 255 different ordinary attributes, half of those
/// over 255.
#[test]
fn disturbed_schemas() {
    let mut random = Random::new(74);
    let joined = join_input();
    let mut run = test_run();
    for round in 0..30_000 {
        let (bytes, node, sets) = if round % 16 == 0 {
            let image = random
                .instantiation_near_255(&joined.formulas()[14])
                .image(8);
            (joined.bytes.clone(), 14, image)
        } else {
            let (relations, count) = (random.between(1, 8), random.between(1, 6));
            file_with_image(&mut random, relations, count)
        };
        let mut schema = encode_schema(&sets);
        run.typing_by_schema(&bytes, node, &schema);
        random.disturb_often(&mut schema);
        run.typing_by_schema(&bytes, node, &schema);
        if !schema.is_empty() {
            let place = random.below(schema.len());
            schema[place] ^= 1 << random.below(8);
        }
        run.typing_by_schema(&bytes, node, &schema);
    }
    run.assert_answers([0, 14, 15, 16, 17, 18, 25], 100);
    run.finish("disturbed schemas", IN_DISTURBED_SCHEMAS);
}

/// Files of 64 nodes and eight relations with schemas at the limits, and every length
/// of the result slice.
#[test]
fn extremes() {
    let mut random = Random::new(75);
    let mut run = test_run();
    for sets in extreme_assignments() {
        let schema = encode_schema(&sets);
        let mut files = pairs_of_the_node_before();
        files.extend((0..4).map(|_| random.mild_file(8, 64)));
        files.push(join_of_64_nodes());
        for file in files {
            run.typing_with_every_length(&file, &schema);
        }
    }
    run.assert_answers([0, 11, 13, 18, 25], 1_000);
    run.finish("extremes", IN_EXTREMES);
}

/// One file in four has another m, so that records are missing or left over.
#[test]
fn disturbed_files_with_good_schemas() {
    let mut random = Random::new(76);
    let mut run = test_run();
    for round in 0..6_000 {
        let (relations, count) = (random.between(1, 8), random.between(1, 10));
        let (mut bytes, _, image) = file_with_image(&mut random, relations, count);
        let schema = encode_schema(&image);
        if round % 4 == 0 {
            bytes[0] = random.between(1, 8);
        } else {
            random.disturb_often(&mut bytes);
        }
        run.typing_for_numbers(&bytes, &schema);
    }
    for case in cases() {
        run.typing_for_numbers(&case.bytes, &[2; 16]);
        run.typing_for_numbers(&case.bytes, &[0; 16]);
        run.typing_for_numbers(&case.bytes, &[]);
    }
    run.assert_answers((0..=11).chain([13, 14, 17, 25]), 100);
    run.finish("disturbed files", IN_DISTURBED_FILES);
}

/// Random bytes; likely bytes; and bytes whose maps list nothing.
#[test]
fn random_bytes_as_schema() {
    let mut random = Random::new(77);
    let mut run = test_run();
    for _ in 0..40_000 {
        let (relations, count) = (random.between(1, 8), random.between(1, 12));
        let bytes = random.mild_file(relations, count);
        let node = random.below(usize::from(count));
        let length = random.below(64);
        run.typing_by_schema(&bytes, node, &random.bytes(length));
        run.typing_by_schema(&bytes, node, &random.likely_bytes(length));
        run.typing_by_schema(&bytes, node, &random.records_of_maps(relations));
    }
    run.assert_answers([RESULT, NO_TYPE], 1_000);
    run.assert_answers((14..=17).chain([25]), 100);
    run.finish("random bytes", IN_RANDOM_BYTES);
}

/// Each node is visited once: visits of operands for each use would be 2 to the 63
/// here and would not end.
#[test]
fn sixty_three_pairs_of_the_node_before_end() {
    let schema = encode_schema(&in_each_of_eight(1..271));
    let mut run = test_run();
    for bytes in pairs_of_the_node_before() {
        let typing = run.typing_by_schema(&bytes, 63, &schema);
        let is_product = bytes[7] == 4;
        assert_eq!(typing == Typing::Untyped, is_product);
    }
}
