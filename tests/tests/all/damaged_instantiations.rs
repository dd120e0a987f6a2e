//! The engine against the reference: Apply and Recover with truncated, extended, changed,
//! extreme and random bytes.

use type_formula_tests::alone;
use type_formula_tests::answer::Operation;
use type_formula_tests::examples::{cases, e1, from_hexadecimal, pairs_of_the_node_before};
use type_formula_tests::extreme_inputs::{extreme_assignments, join_of_64_nodes};
use type_formula_tests::formula_examples::FILLED_SCHEMA;
use type_formula_tests::input::Input;
use type_formula_tests::instantiation_examples::{
    instances, instantiation_bytes, E3_INSTANTIATION, FILLED_INSTANTIATION,
};
use type_formula_tests::pseudorandom::Random;
use type_formula_tests::random_instantiations::MOST_IN_DISTURBED;
use type_formula_tests::reference::{
    encode_instantiation, encode_schema, Apply, Instantiation, Recover, LISTS_START, SCHEMA_LENGTH,
};
use type_formula_tests::test_run::TestRun;
use type_formula_tests::typing_examples::E3_SCHEMA;

/// The least number of comparisons of each test.
const IN_PREFIXES: u64 = 50_000;
const IN_CHANGES: u64 = 50_000;
const IN_EXTREMES: u64 = 15_000;
const IN_DISTURBED_FILES: u64 = 80_000;
const IN_RANDOM_BYTES: u64 = 60_000;

/// The intended number of comparisons here.
const _: () = assert!(
    IN_PREFIXES + IN_CHANGES + IN_EXTREMES + IN_DISTURBED_FILES + IN_RANDOM_BYTES >= 250_000
);

/// A run with random slices and numbers before each call.
fn test_run() -> TestRun {
    TestRun::new(90)
}

/// A file, one of its nodes, an instantiation of its formula, and the image as schema.
type Whole = (Input, usize, Vec<u8>, Vec<u8>);

/// Those of known answers, and random ones.
fn wholes(random: &mut Random) -> Vec<Whole> {
    let known = instances().into_iter().map(|instance| {
        let (input, node) = (Input::new(instance.file), instance.node);
        (input, node, instance.instantiation, instance.schema)
    });
    let mut wholes: Vec<Whole> = known.collect();
    wholes.extend((0..200).map(|_| {
        let (relations, count) = (random.between(1, 8), random.between(1, 6));
        let (input, node, instantiation) =
            random.file_with_instantiation(relations, count, MOST_IN_DISTURBED);
        let schema = encode_schema(&instantiation.image(relations));
        (input, node, encode_instantiation(&instantiation), schema)
    }));
    wholes
}

/// The bytes beyond the prefix are those of the whole, so an engine that read past the
/// length given to it would apply or recover.
#[test]
fn every_prefix_and_longer_ones() {
    let mut random = Random::new(97);
    let mut run = test_run();
    for (input, node, instantiation, schema) in wholes(&mut random) {
        for length in 0..instantiation.len() {
            let apply = run.apply_bytes(&input, node, &instantiation[..length]);
            assert_eq!(apply, Apply::Refused { number: 14 });
        }
        for length in 0..schema.len() {
            let recover = run.recover_bytes(&input, node, &schema[..length]);
            assert_eq!(recover, Recover::Refused { number: 14 });
        }
        for length in [1, 2, 3, 812, SCHEMA_LENGTH, 70_000] {
            let after = random.likely_bytes(length);
            let longer = [&instantiation[..], &after].concat();
            let apply = run.apply_bytes(&input, node, &longer);
            assert_eq!(apply, Apply::Refused { number: 17 });
            let longer = [&schema[..], &after].concat();
            let recover = run.recover_bytes(&input, node, &longer);
            assert_eq!(recover, Recover::Refused { number: 17 });
        }
        run.apply_bytes(&input, node, &instantiation);
        run.recover_bytes(&input, node, &schema);
    }
    run.assert_given(Operation::Apply, [14, 17], 1_000);
    run.assert_given(Operation::Recover, [14, 17], 1_000);
    run.finish("prefixes", IN_PREFIXES);
}

/// Every value of every byte of a few instantiations and schemas.
#[test]
fn every_change_of_one_byte() {
    let mut run = test_run();
    let input = Input::new(e1().bytes);
    let lists: [(usize, &[u16]); 3] = [(3, &[20, 256]), (4, &[255, 300]), (7, &[21])];
    let interleaved = instantiation_bytes(&[(1, 5), (2, 6), (3, 7)], &lists);
    let (image, _) = alone::applied(&input, 6, &interleaved);
    let [filled, e3] = [FILLED_INSTANTIATION, E3_INSTANTIATION].map(from_hexadecimal);
    for instantiation in [filled, e3, interleaved] {
        for place in 0..instantiation.len() {
            for value in 0..=255 {
                let mut changed = instantiation.clone();
                changed[place] = value;
                run.apply_bytes(&input, 6, &changed);
            }
        }
    }
    let [filled, e3] = [FILLED_SCHEMA, E3_SCHEMA].map(from_hexadecimal);
    for schema in [filled, e3, image] {
        for place in 0..schema.len() {
            for value in 0..=255 {
                let mut changed = schema.clone();
                changed[place] = value;
                run.recover_bytes(&input, 6, &changed);
            }
        }
    }
    run.assert_given(Operation::Apply, [0, 14, 16, 17, 20, 21], 20);
    run.assert_given(Operation::Apply, [15, 19, 26], 3);
    run.assert_given(Operation::Recover, [0, 14, 16, 17], 100);
    run.assert_given(Operation::Recover, [25], 1);
    run.finish("changes of one byte", IN_CHANGES);
}

/// Files of 64 nodes and eight relations with instantiations and schemas at the limits.
#[test]
fn extremes() {
    let mut random = Random::new(98);
    let mut files = pairs_of_the_node_before();
    files.extend((0..3).map(|_| random.mild_file(8, 64)));
    files.push(join_of_64_nodes());
    let mut run = test_run();
    for file in files {
        let input = Input::new(file);
        for sets in extreme_assignments() {
            let instantiation = Instantiation::with_image(&sets);
            run.apply_for_numbers(&input, &encode_instantiation(&instantiation));
            run.recover_for_numbers(&input, &encode_schema(&sets));
        }
    }
    run.assert_given(Operation::Apply, [0, 11, 12, 13, 18, 20, 21, 26], 100);
    run.assert_given(Operation::Recover, [0, 11, 12, 13, 18, 25], 100);
    run.finish("extremes", IN_EXTREMES);
}

/// One file in four has another m, so that subsets and bits are no longer below 2^m, and
/// records are missing or left over.
#[test]
fn disturbed_files_with_good_instantiations_and_schemas() {
    let mut random = Random::new(99);
    let mut run = test_run();
    for round in 0..2_500 {
        let (relations, count) = (random.between(1, 8), random.between(1, 8));
        let (input, _, instantiation) =
            random.file_with_instantiation(relations, count, MOST_IN_DISTURBED);
        let mut bytes = input.bytes;
        if round % 4 == 0 {
            bytes[0] = random.between(1, 8);
        } else {
            random.disturb_often(&mut bytes);
        }
        let input = Input::new(bytes);
        run.apply_for_numbers(&input, &encode_instantiation(&instantiation));
        let schema = encode_schema(&instantiation.image(relations));
        run.recover_for_numbers(&input, &schema);
    }
    for case in cases() {
        let input = Input::new(case.bytes);
        run.apply_for_numbers(&input, &[0; LISTS_START]);
        run.recover_for_numbers(&input, &[0; 16]);
    }
    run.assert_given(Operation::Apply, (0..=13).chain([20, 21, 26]), 100);
    run.assert_given(Operation::Recover, (0..=14).chain([17, 25]), 100);
    run.finish("disturbed files", IN_DISTURBED_FILES);
}

/// Random bytes; likely bytes; and after subsets and a map of few bits random lists.
#[test]
fn random_bytes_as_instantiation_and_as_schema() {
    let mut random = Random::new(100);
    let mut run = test_run();
    for _ in 0..12_000 {
        let (relations, count) = (random.between(1, 8), random.between(1, 8));
        let input = Input::new(random.mild_file(relations, count));
        let node = random.below(usize::from(count));
        let length = random.below(100);
        run.apply_bytes(&input, node, &random.bytes(length));
        run.apply_bytes(&input, node, &random.likely_bytes(length));
        let formula = &input.formulas()[node];
        let bytes = random.instantiation_with_likely_lists(formula, length / 8);
        run.apply_bytes(&input, node, &bytes);
        run.recover_bytes(&input, node, &random.likely_bytes(length));
        run.recover_bytes(&input, node, &random.records_of_maps(relations));
    }
    run.assert_given(Operation::Apply, [0, 14, 15, 16, 17], 100);
    run.assert_given(Operation::Recover, [0, 14, 15, 16, 17, 25], 100);
    run.finish("random bytes", IN_RANDOM_BYTES);
}
