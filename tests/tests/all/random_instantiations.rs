//! The engine against the reference: Apply and Recover with instantiations and schemas that
//! fit a formula or are near such ones.

use type_formula_tests::alone;
use type_formula_tests::answer::Operation;
use type_formula_tests::examples::{smallest_files, three_subsets};
use type_formula_tests::extreme_inputs::join_input;
use type_formula_tests::input::Input;
use type_formula_tests::pseudorandom::Random;
use type_formula_tests::random_instantiations::MOST_IN_DISTURBED;
use type_formula_tests::reference::{
    assignment_of, blocked_attribute, encode_instantiation, encode_schema, Apply, Instantiation,
    Recover, Type,
};
use type_formula_tests::test_run::TestRun;

/// The least number of comparisons of each test.
const IN_INSTANTIATIONS: u64 = 40_000;
const IN_DISTURBED_INSTANTIATIONS: u64 = 80_000;
const IN_NEAR_SCHEMAS: u64 = 36_000;
const IN_DISTURBED_SCHEMAS: u64 = 40_000;
const IN_MANY_LISTS: u64 = 2_000;
const IN_ALL_SMALLEST_FILES: u64 = 240_000;

/// The intended number of comparisons here; with those of damaged bytes, 250,000, they
/// reach 650,000.
const _: () = assert!(
    IN_INSTANTIATIONS
        + IN_DISTURBED_INSTANTIATIONS
        + IN_NEAR_SCHEMAS
        + IN_DISTURBED_SCHEMAS
        + IN_MANY_LISTS
        + IN_ALL_SMALLEST_FILES
        >= 400_000
);

/// A run with random slices and numbers before each call.
fn test_run() -> TestRun {
    TestRun::new(90)
}

/// Instantiations of one node's formula, applied to it and then to every node; the schema
/// is recovered, by both and by the engine alone.
#[test]
fn random_instantiations() {
    let mut random = Random::new(92);
    let mut run = test_run();
    for round in 0..5_000 {
        let relations = random.between(1, 8);
        let count = random.between(1, if round % 16 == 0 { 64 } else { 12 });
        let (input, node, instantiation) = random.file_with_instantiation(relations, count, 255);
        let bytes = encode_instantiation(&instantiation);
        let apply = run.apply_bytes(&input, node, &bytes);
        let is_allowed = blocked_attribute(&input.formulas()[node]).is_none();
        let is_filled = !instantiation.image(relations).iter().any(Type::is_empty);
        let is_applied = matches!(apply, Apply::Applied { .. });
        assert_eq!(is_applied, is_allowed && is_filled);
        for other in 0..usize::from(count) {
            run.apply_bytes(&input, other, &bytes);
        }
        let schema = encode_schema(&instantiation.image(relations));
        run.recover_bytes(&input, node, &schema);
        if is_applied {
            let (image, _) = alone::applied(&input, node, &bytes);
            assert_eq!(image, schema);
            assert_eq!(alone::recovered(&input, node, &image), bytes);
        }
    }
    run.assert_given(Operation::Apply, [0, 20, 21], 1_000);
    run.assert_given(Operation::Apply, [26], 100);
    run.assert_given(Operation::Recover, [0], 1_000);
    run.assert_given(Operation::Recover, [25], 100);
    run.finish("instantiations", IN_INSTANTIATIONS);
}

/// Instantiations of the join of eight relations, whose attributes are spread over up to
/// 255 lists.
#[test]
fn attributes_of_many_lists() {
    let mut random = Random::new(93);
    let mut run = test_run();
    let input = join_input();
    for _ in 0..1_000 {
        let node = random.below(15);
        let instantiation = random.instantiation_near_255(&input.formulas()[14]);
        let bytes = encode_instantiation(&instantiation);
        let schema = encode_schema(&instantiation.image(8));
        run.apply_bytes(&input, node, &bytes);
        run.recover_bytes(&input, node, &schema);
        let listed: usize = instantiation.lists.values().map(|list| list.len()).sum();
        if listed <= 255 {
            let (image, _) = alone::applied(&input, node, &bytes);
            assert_eq!(image, schema);
            assert_eq!(alone::recovered(&input, node, &image), bytes);
        }
    }
    run.assert_given(Operation::Apply, [0, 18], 300);
    run.assert_given(Operation::Recover, [0, 18], 300);
    run.finish("many lists", IN_MANY_LISTS);
}

/// Instantiations disturbed in their subsets and lists and then in their bytes, one in
/// eight with over 255 attributes.
#[test]
fn disturbed_instantiations() {
    let mut random = Random::new(94);
    let mut run = test_run();
    for round in 0..12_000 {
        let (relations, count) = (random.between(1, 8), random.between(1, 6));
        let (input, node, instantiation) =
            random.file_with_instantiation(relations, count, MOST_IN_DISTURBED);
        for (steps, of_bytes) in [(1, 0), (1, 0), (2, 0), (3, 0), (0, 1), (0, 2), (1, 1)] {
            let mut changed = instantiation.clone();
            if round % 8 == 0 {
                random.overfill(&mut changed);
            }
            for _ in 0..steps {
                random.disturb_instantiation(relations, &mut changed);
            }
            let mut bytes = encode_instantiation(&changed);
            for _ in 0..of_bytes {
                random.disturb(&mut bytes);
            }
            run.apply_bytes(&input, node, &bytes);
        }
    }
    run.assert_given(Operation::Apply, [0].into_iter().chain(14..=21), 1_000);
    run.assert_given(Operation::Apply, [26], 300);
    run.finish("disturbed instantiations", IN_DISTURBED_INSTANTIATIONS);
}

/// Images of instantiations, and such with attributes added, dropped or moved. What is
/// recovered is applied again, by the engine alone.
#[test]
fn random_schemas_near_images() {
    let mut random = Random::new(95);
    let mut run = test_run();
    for round in 0..6_000 {
        let relations = random.between(1, 8);
        let count = random.between(1, if round % 32 == 0 { 64 } else { 12 });
        let (input, node, instantiation) =
            random.file_with_instantiation(relations, count, MOST_IN_DISTURBED);
        let image = instantiation.image(relations);
        for steps in [0, 1, 1, 1, 2, 4] {
            let mut sets = image.clone();
            for _ in 0..steps {
                random.disturb_assignment(&mut sets);
            }
            let schema = encode_schema(&sets);
            let recover = run.recover_bytes(&input, node, &schema);
            if matches!(recover, Recover::Recovered { .. }) {
                let recovered = alone::recovered(&input, node, &schema);
                assert_eq!(alone::applied(&input, node, &recovered).0, schema);
            }
        }
    }
    run.assert_both(Operation::Recover);
    run.finish("near schemas", IN_NEAR_SCHEMAS);
}

/// One schema in sixteen has about 255 different ordinary attributes, half of those over
/// 255.
#[test]
fn disturbed_schemas() {
    let mut random = Random::new(96);
    let joined = join_input();
    let mut run = test_run();
    for round in 0..14_000 {
        let (relations, count) = (random.between(1, 8), random.between(1, 6));
        let (other, node, instantiation) =
            random.file_with_instantiation(relations, count, MOST_IN_DISTURBED);
        let (input, node, image) = if round % 16 == 0 {
            let instantiation = random.instantiation_near_255(&joined.formulas()[14]);
            (&joined, 14, instantiation.image(8))
        } else {
            (&other, node, instantiation.image(relations))
        };
        let mut schema = encode_schema(&image);
        run.recover_bytes(input, node, &schema);
        random.disturb_often(&mut schema);
        run.recover_bytes(input, node, &schema);
        if !schema.is_empty() {
            let place = random.below(schema.len());
            schema[place] ^= 1 << random.below(8);
        }
        run.recover_bytes(input, node, &schema);
    }
    run.assert_given(Operation::Recover, [0, 14, 15, 16, 17, 18, 25], 300);
    run.finish("disturbed schemas", IN_DISTURBED_SCHEMAS);
}

/// Every subset for attributes 1 and 2, and every list of 16 or none, for the last node:
/// as an instantiation and as a schema.
#[test]
fn all_smallest_files_with_all_small_instantiations_and_schemas() {
    let mut run = test_run();
    for bytes in smallest_files() {
        let relations = bytes[0];
        let input = Input::new(bytes);
        for [first, second, third] in three_subsets(relations) {
            let mut instantiation = Instantiation::default();
            instantiation.subsets[..2].copy_from_slice(&[first as u8, second as u8]);
            if third > 0 {
                instantiation.insert(third, 16);
            }
            run.apply_bytes(&input, 2, &encode_instantiation(&instantiation));
            let sets = assignment_of(relations, [(1, first), (2, second), (16, third)]);
            run.recover_bytes(&input, 2, &encode_schema(&sets));
        }
    }
    run.assert_given(Operation::Apply, [0, 20, 21, 26], 5_000);
    run.assert_given(Operation::Recover, [25], 5_000);
    run.assert_both(Operation::Recover);
    run.finish("all smallest files", IN_ALL_SMALLEST_FILES);
}
