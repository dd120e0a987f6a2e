//! The engine against the reference: Apply and Recover, calls of known answers and slices
//! of every length of interest.

use type_formula_tests::alone::{self, assert_written};
use type_formula_tests::answer::{Operation, NO_TYPE};
use type_formula_tests::engine::{self, Lengths, UNTYPED};
use type_formula_tests::examples::{
    e1, from_hexadecimal, join_of_eight, pairs_of_the_node_before, to_hexadecimal,
};
use type_formula_tests::formula_examples::{E2_SCHEMA, FILLED_SCHEMA};
use type_formula_tests::input::Input;
use type_formula_tests::instantiation_examples::{
    apply_cases, instances, recover_cases, with_faults, ApplyCase, RecoverCase, E3_INSTANTIATION,
    FILLED_INSTANTIATION,
};
use type_formula_tests::pseudorandom::Random;
use type_formula_tests::reference::{
    encode_file, encode_instantiation, encode_schema, FORMULA_LENGTH, INSTANTIATION_LENGTH,
    OUTPUT_LENGTH, SCHEMA_LENGTH,
};
use type_formula_tests::test_run::TestRun;
use type_formula_tests::typing_examples::{
    in_each_of_eight, spread_over_eight, E3_SCHEMA, E4_SCHEMA,
};

/// The least number of comparisons of each test.
const IN_CASES: u64 = 8_000;
const IN_LENGTHS: u64 = 8_000;

/// A run with random slices and numbers before each call.
fn test_run() -> TestRun {
    TestRun::new(90)
}

/// Asserts a case's answer of the engine, without the reference.
fn assert_apply(case: &ApplyCase) {
    let name = &case.name;
    let [mut work, mut schema, mut out] = case.lengths.map(|length| vec![0x55; length]);
    let mut lengths = Lengths {
        schema: 77,
        output: 78,
    };
    let answer = engine::apply(
        &case.file,
        case.node,
        &case.instantiation,
        &mut work,
        &mut schema,
        &mut out,
        &mut lengths,
    );
    let (refusal, image, output): (u8, &[u8], &[u8]) = match &case.answer {
        Ok((image, output)) => (0, image, output),
        Err(refusal) => (*refusal, &[], &[]),
    };
    assert_eq!(answer, refusal, "{name}");
    let wanted = match refusal {
        0 => (image.len(), output.len()),
        _ => (77, 78),
    };
    assert_eq!((lengths.schema, lengths.output), wanted, "{name}");
    let filled = match refusal {
        0 | 20 | 21 | 26 => alone::formulas(&case.file),
        _ => Vec::new(),
    };
    assert_written(name, &work, &filled);
    assert_written(name, &schema, image);
    assert_written(name, &out, output);
}

fn assert_recover(case: &RecoverCase) {
    let name = &case.name;
    let [mut work, mut instantiation] = case.lengths.map(|length| vec![0x55; length]);
    let mut value = 77;
    let answer = engine::recover(
        &case.file,
        case.node,
        &case.schema,
        &mut work,
        &mut instantiation,
        &mut value,
    );
    let (wanted, written): (_, &[u8]) = match &case.answer {
        Ok(Some(written)) => ((0, written.len()), written),
        Ok(None) => ((UNTYPED, 77), &[]),
        Err(refusal) => ((*refusal, 77), &[]),
    };
    assert_eq!((answer, value), wanted, "{name}");
    let filled = match case.answer {
        Ok(_) => alone::formulas(&case.file),
        Err(_) => Vec::new(),
    };
    assert_written(name, &work, &filled);
    assert_written(name, &instantiation, written);
}

#[test]
fn the_schema_of_e3_without_20_and_that_of_e3_are_recovered_and_applied() {
    let input = Input::new(e1().bytes);
    for (schema, instantiation, output) in [
        (FILLED_SCHEMA, FILLED_INSTANTIATION, "1c 00"),
        (E3_SCHEMA, E3_INSTANTIATION, "1d 00 01 14 00"),
    ] {
        let [schema, instantiation, output] = [schema, instantiation, output].map(from_hexadecimal);
        assert_eq!(alone::recovered(&input, 6, &schema), instantiation);
        let applied = alone::applied(&input, 6, &instantiation);
        assert_eq!(applied, (schema, output));
    }
}

/// Instantiations of over 65,000 attributes are compared for one node only.
#[test]
fn examples_and_edges_have_their_answers() {
    let mut run = test_run();
    for case in apply_cases() {
        assert_apply(&case);
        let input = Input::new(case.file);
        run.apply(&input, case.node, &case.instantiation, case.lengths);
        if case.instantiation.len() < 100_000 {
            run.apply_for_numbers(&input, &case.instantiation);
        }
    }
    for case in recover_cases() {
        assert_recover(&case);
        let input = Input::new(case.file);
        run.recover(&input, case.node, &case.schema, case.lengths);
        run.recover_for_numbers(&input, &case.schema);
    }
    run.assert_given(Operation::Apply, [0, 26].into_iter().chain(10..=21), 5);
    run.assert_given(Operation::Recover, [0, 25].into_iter().chain(10..=18), 5);
    run.finish("examples and edges", IN_CASES);
}

/// Slices of no bytes whose pointers lead nowhere.
#[test]
fn empty_slices_are_refused() {
    let file = e1().bytes;
    let mut lengths = Lengths {
        schema: 77,
        output: 78,
    };
    let mut apply = |file: &[u8], work: &mut [u8], schema: &mut [u8], out: &mut [u8]| {
        engine::apply(file, 0, &[], work, schema, out, &mut lengths)
    };
    assert_eq!(apply(&[], &mut [], &mut [], &mut []), 1);
    assert_eq!(apply(&file, &mut [], &mut [], &mut []), 12);
    let (mut work, mut schema) = ([0x55; 7_168], [0x55; SCHEMA_LENGTH]);
    assert_eq!(apply(&file, &mut work, &mut [], &mut []), 13);
    assert_eq!(apply(&file, &mut work, &mut schema, &mut []), 13);
    assert_eq!(apply(&file, &mut work, &mut [], &mut [0x55; 513]), 13);
    assert_eq!(apply(&file, &mut work, &mut schema, &mut [0x55; 513]), 14);
    assert_eq!((lengths.schema, lengths.output), (77, 78));
    let mut value = 77;
    let mut recover = |file: &[u8], work: &mut [u8], instantiation: &mut [u8]| {
        engine::recover(file, 0, &[], work, instantiation, &mut value)
    };
    assert_eq!(recover(&[], &mut [], &mut []), 1);
    assert_eq!(recover(&file, &mut [], &mut []), 12);
    assert_eq!(recover(&file, &mut work, &mut []), 13);
    assert_eq!(recover(&file, &mut work, &mut [0x55; 812]), 14);
    assert_eq!(value, 77);
    assert!(work.iter().chain(&schema).all(|&byte| byte == 0x55));
}

/// E1, the join of eight relations, a file of 64 nodes and a refused one, with
/// instantiations and schemas of known answers.
#[test]
fn every_length_of_interest_of_each_slice() {
    let mut random = Random::new(91);
    let mut run = test_run();
    let files = [
        e1().bytes,
        encode_file(8, &join_of_eight()),
        random.mild_file(8, 64),
        from_hexadecimal("01 01 01 00 00"),
    ];
    let faults: [&[u8]; 8] = [&[], &[14], &[17], &[19], &[18], &[20], &[21], &[26]];
    let instantiations = faults.map(|faults| with_faults(faults, 0x00));
    let written = [
        FILLED_SCHEMA,
        E2_SCHEMA,
        E4_SCHEMA,
        "01 00 00",
        "01 00 01 0f 00",
    ]
    .map(from_hexadecimal);
    let longest = encode_schema(&in_each_of_eight(1..271));
    let with_256 = encode_schema(&spread_over_eight(16..272));
    let schemas = written.into_iter().chain([longest, with_256]);
    let schemas: Vec<Vec<u8>> = schemas.collect();
    for bytes in files {
        let input = Input::new(bytes);
        let last = usize::from(input.bytes[1]) - 1;
        for node in [0, last, last + 1, usize::MAX] {
            for instantiation in &instantiations {
                run.apply_with_every_length(&input, node, instantiation);
            }
            for schema in &schemas {
                run.recover_with_every_length(&input, node, schema);
            }
        }
    }
    run.assert_given(
        Operation::Apply,
        [0, 10, 11, 12, 13, 14, 17, 18, 19, 20, 21, 26],
        8,
    );
    run.assert_given(Operation::Recover, [0, 25].into_iter().chain(10..=18), 8);
    run.assert_given(Operation::Recover, [NO_TYPE], 4);
    run.finish("lengths", IN_LENGTHS);
}

/// No slice is cleared between the calls, so each holds what others wrote; what lies
/// beyond the lengths written stays.
#[test]
fn the_same_slices_for_many_calls() {
    let mut random = Random::new(101);
    let lengths = [
        64 * FORMULA_LENGTH,
        SCHEMA_LENGTH,
        OUTPUT_LENGTH,
        INSTANTIATION_LENGTH,
    ];
    let mut slices = lengths.map(|length| random.bytes(length));
    let mut wanted = slices.clone();
    for round in 0..2_000 {
        let (relations, count) = (random.between(1, 8), random.between(1, 24));
        let (input, node, instantiation) = random.file_with_instantiation(relations, count, 255);
        let inferred = input.inferred.as_ref().expect("accepted");
        {
            let [work, schema, out, result] = &mut slices;
            let mut written = Lengths::default();
            let bytes = encode_instantiation(&instantiation);
            engine::apply(&input.bytes, node, &bytes, work, schema, out, &mut written);
            let image = encode_schema(&instantiation.image(relations));
            engine::recover(&input.bytes, node, &image, work, result, &mut 0);
            let [work, schema, out, result] = &mut wanted;
            inferred.apply(node, &bytes, work, schema, out);
            inferred.recover(node, &image, work, result);
        }
        let text = to_hexadecimal(&input.bytes);
        assert!(slices == wanted, "round {round}, node {node}: {text}");
    }
}

/// Each node is visited once: visits of operands for each use would be 2 to the 63
/// here and would not end.
#[test]
fn sixty_three_pairs_of_the_node_before_end() {
    let schema = encode_schema(&in_each_of_eight(1..271));
    let instances = instances().into_iter();
    let longest = instances.map(|instance| instance.instantiation);
    let longest = longest.max_by_key(Vec::len).expect("an instance");
    let mut run = test_run();
    for bytes in pairs_of_the_node_before() {
        let input = Input::new(bytes);
        run.apply_bytes(&input, 63, &longest);
        run.recover_bytes(&input, 63, &schema);
    }
}
