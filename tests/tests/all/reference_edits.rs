//! Edit and Preview: the reference against the examples and against what `docs/FORMAT.md` says of
//! bytes, and the engine against the reference.

use type_formula_tests::answer::{Operation, NO_TYPE, RESULT};
use type_formula_tests::edit_examples::{edit_cases, refused_records, Judgement};
use type_formula_tests::examples::{cases, e1, e10, longest_accepted, Example};
use type_formula_tests::extreme_inputs::greatest_files;
use type_formula_tests::pseudorandom::Random;
use type_formula_tests::random_covers::FileKind;
use type_formula_tests::reference::{
    encode_node, read_file, read_node, verdict, Verdict, FILE_LENGTH, LEGAL_MAPS, SCHEMA_LENGTH,
};
use type_formula_tests::reference_calls::{edit_of, edit_with, preview_of, preview_with};
use type_formula_tests::slice_lengths::work_length;
use type_formula_tests::test_run::TestRun;

/// The least number of comparisons of each test.
const IN_CASES: u64 = 4_000;
const IN_EVERY_M_AND_N: u64 = 4_000;
const IN_EVERY_NODE: u64 = 45_000;
const IN_NUMBERS: u64 = 60_000;
const IN_PREFIXES: u64 = 60_000;
const IN_CHANGES: u64 = 200_000;
const IN_RANDOM_RECORDS: u64 = 60_000;
const IN_EVERY_MAP: u64 = 40_000;
const IN_DAMAGED_FILES: u64 = 80_000;
const IN_CUT_FILES: u64 = 10_000;
const IN_GREATEST_FILES: u64 = 2_000;

/// The intended number of comparisons in all.
const _: () = assert!(
    IN_CASES
        + IN_EVERY_M_AND_N
        + IN_EVERY_NODE
        + IN_NUMBERS
        + IN_PREFIXES
        + IN_CHANGES
        + IN_RANDOM_RECORDS
        + IN_EVERY_MAP
        + IN_DAMAGED_FILES
        + IN_CUT_FILES
        + IN_GREATEST_FILES
        >= 500_000
);

/// A run with random slices and numbers before each call.
fn test_run() -> TestRun {
    TestRun::new(820)
}

#[test]
fn the_reference_gives_the_examples() {
    for case in edit_cases() {
        let edited = edit_of(&case.file, case.node, &case.record);
        assert_eq!(edited, Ok(case.edited), "{}", case.name);
        let judgement = preview_of(&case.file, case.node, &case.record);
        assert_eq!(judgement, Ok(case.judgement), "{}", case.name);
    }
}

#[test]
fn the_reference_refuses_the_records() {
    let file = e1().bytes;
    for case in refused_records() {
        let (node, record, refusal) = (case.node, &case.record, case.refusal);
        assert_eq!(edit_of(&file, node, record), Err(refusal), "{}", case.name);
        let judgement = preview_of(&file, node, record);
        assert_eq!(judgement, Err(refusal), "{}", case.name);
        assert_eq!(edit_with(&file, node, record, FILE_LENGTH - 1), Err(27));
        assert_eq!(edit_with(&file, 7, record, FILE_LENGTH - 1), Err(11));
        assert_eq!(preview_with(&file, node, record, 7_167), Err(12));
        assert_eq!(preview_with(&file, 7, record, 7_167), Err(11));
    }
    for refusal in 4..=10 {
        let is_met = refused_records().iter().any(|case| case.refusal == refusal);
        assert!(is_met, "{refusal}");
    }
}

#[test]
fn the_reference_refuses_the_file_first() {
    for case in cases().iter().filter(|case| case.answer != 0) {
        let refusal = case.answer;
        for (node, record) in [(0, &[1, 0][..]), (64, &[1, 0]), (0, &[])] {
            let edited = edit_with(&case.bytes, node, record, 0);
            assert_eq!(edited, Err(refusal), "{}", case.name);
            let judgement = preview_with(&case.bytes, node, record, 0);
            assert_eq!(judgement, Err(refusal), "{}", case.name);
        }
    }
}

/// What Verdict by the reference says of the last node.
fn judged(file: &[u8]) -> Judgement {
    let (mut work, mut schema) = (vec![0; work_length(file)], vec![0; SCHEMA_LENGTH]);
    match verdict(file, usize::from(file[1]) - 1, &mut work, &mut schema) {
        Verdict::Typable { memberships, .. } => Ok(memberships),
        Verdict::Untypable { attribute } => Err(attribute),
        Verdict::Refused { number } => panic!("refused {number}"),
    }
}

/// The edited file of FORMAT 1.8, by bytes; and Preview by Verdict of it.
#[test]
fn the_reference_puts_the_record_between_the_bytes_around() {
    let mut random = Random::new(821);
    for _ in 0..3_000 {
        let (relations, count) = (random.between(1, 4), random.between(1, 20));
        let file = random.likely_file(relations, count);
        let number = random.between(0, count - 1);
        let record = encode_node(&random.mild_node(relations, number));
        let node = usize::from(number);
        let part = read_file(&file).expect("accepted").parts[node].clone();
        let wanted = [&file[..part.start], &record, &file[part.end..]].concat();
        let judgement = judged(&wanted);
        assert_eq!(preview_of(&file, node, &record), Ok(judgement));
        assert_eq!(edit_of(&file, node, &record), Ok(wanted));
    }
}

#[test]
fn examples_with_every_length_and_number() {
    let mut run = test_run();
    for case in edit_cases() {
        run.exchange_with_every_length(&case.file, case.node, &case.record);
        run.exchange_for_numbers(&case.file, &case.record);
    }
    for case in refused_records() {
        run.exchange_with_every_length(&e1().bytes, case.node, &case.record);
        run.exchange_for_numbers(&e1().bytes, &case.record);
    }
    run.assert_given(Operation::Edit, [0, 4, 5, 6, 7, 8, 9, 10, 11, 27], 10);
    run.assert_given(
        Operation::Preview,
        [0, 4, 5, 6, 7, 8, 9, 10, 11, 12, 255],
        10,
    );
    run.finish("examples", IN_CASES);
}

/// A record for the node of this number, which can stand for it.
fn record(random: &mut Random, relations: u8, number: u8) -> Vec<u8> {
    let node = match random.below(3) {
        0 => random.node(relations, number),
        _ => random.mild_node(relations, number),
    };
    encode_node(&node)
}

#[test]
fn random_files_of_every_m_and_n() {
    let mut random = Random::new(822);
    let mut run = test_run();
    for relations in 1..=8 {
        for count in 1..=64 {
            let file = random.likely_file(relations, count);
            for number in [0, count - 1, random.between(0, count - 1), count / 2] {
                let record = record(&mut random, relations, number);
                run.exchange(&file, number.into(), &record);
            }
        }
    }
    run.assert_given(Operation::Preview, [RESULT, NO_TYPE], 200);
    run.finish("every m and n", IN_EVERY_M_AND_N);
}

/// Files by how their relations are filled, and others; every node is exchanged for one that can
/// stand for it.
#[test]
fn every_node_of_random_files() {
    let mut random = Random::new(823);
    let mut run = test_run();
    for round in 0..2_400 {
        let relations = 1 + (round % 8) as u8;
        let kind = FileKind::ALL[random.below(FileKind::ALL.len())];
        let file = random.file_of_kind(kind, relations);
        for number in 0..file[1] {
            let record = record(&mut random, relations, number);
            run.exchange(&file, number.into(), &record);
        }
    }
    run.assert_both(Operation::Preview);
    run.finish("every node", IN_EVERY_NODE);
}

/// Each node number of interest, and the same record as each node.
#[test]
fn every_number_of_random_files() {
    let mut random = Random::new(824);
    let mut run = test_run();
    for round in 0..2_000 {
        let (relations, count) = (random.between(1, 4), random.between(1, 8));
        let file = random.likely_file(relations, count);
        let mut record = record(&mut random, relations, count);
        if round % 4 == 0 {
            random.disturb(&mut record);
        }
        run.exchange_for_numbers(&file, &record);
    }
    run.assert_given(Operation::Edit, [0, 8, 11, 27], 500);
    run.assert_given(Operation::Preview, [0, 8, 11, 12, 255], 500);
    run.finish("every number", IN_NUMBERS);
}

/// Every prefix of a record that can stand for the node is 4; with bytes after it, it is 10. The
/// bytes beyond a prefix are those of the record.
#[test]
fn every_prefix_of_records_and_bytes_after_them() {
    let mut random = Random::new(825);
    let mut run = test_run();
    for _ in 0..3_000 {
        let (relations, count) = (random.between(1, 3), random.between(1, 8));
        let file = random.likely_file(relations, count);
        let number = random.between(0, count - 1);
        let (node, record) = (number.into(), record(&mut random, relations, number));
        for length in 0..record.len() {
            assert_eq!(run.exchange(&file, node, &record[..length]), 4);
        }
        assert!(matches!(run.exchange(&file, node, &record), 0 | 255));
        for length in [1, 2, 5, 6, 7, 300, 66_000] {
            let longer = [&record[..], &random.likely_bytes(length)].concat();
            assert_eq!(run.exchange(&file, node, &longer), 10);
        }
    }
    run.finish("prefixes", IN_PREFIXES);
}

/// Every value of each byte of each record of an example, as every node.
fn changes_of(run: &mut TestRun, example: &Example) {
    for part in &example.parts {
        let record = &example.bytes[part.clone()];
        for place in 0..record.len() {
            let mut changed = record.to_vec();
            for value in 0..=255 {
                changed[place] = value;
                for node in 0..example.parts.len() {
                    run.exchange(&example.bytes, node, &changed);
                }
            }
        }
    }
}

#[test]
fn every_change_of_one_byte_of_the_records_of_e1_and_e10() {
    let mut run = test_run();
    changes_of(&mut run, &e1());
    changes_of(&mut run, &e10());
    run.assert_given(Operation::Edit, [0, 4, 5, 6, 7, 8, 9, 10], 100);
    run.assert_given(Operation::Preview, [RESULT, NO_TYPE], 500);
    run.finish("changes of one byte", IN_CHANGES);
}

#[test]
fn random_bytes_as_records() {
    let mut random = Random::new(826);
    let mut run = test_run();
    let file = e10().bytes;
    for length in (0..=400).flat_map(|length| [length; 25]) {
        let node = random.below(9);
        run.exchange(&file, node, &random.bytes(length));
        run.exchange(&file, node, &random.likely_bytes(length));
        let short = random.below(8);
        let map = LEGAL_MAPS[random.below(LEGAL_MAPS.len())];
        let record = [vec![map], random.likely_bytes(short)].concat();
        run.exchange(&file, node, &record);
    }
    run.assert_given(Operation::Edit, 4..=10, 100);
    run.finish("random records", IN_RANDOM_RECORDS);
}

/// Every map with fields of every number, and every value of each field of the legal ones.
#[test]
fn records_of_every_map_and_value() {
    let mut run = test_run();
    let (file, node) = (e10().bytes, 5);
    for value in 0..=255 {
        for length in 0..8 {
            let record = [vec![value], vec![1; length]].concat();
            run.exchange(&file, node, &record);
        }
        for other in [0, 1, 4, 5, 6, 15, 16, 255] {
            run.exchange(&file, node, &[1, value]);
            run.exchange(&file, node, &[14, value, other, 1]);
            run.exchange(&file, node, &[14, other, 0, value]);
            run.exchange(&file, node, &[26, other, value, 2, 0]);
            run.exchange(&file, node, &[26, 4, 5, value, other]);
            run.exchange(&file, node, &[26, 4, 6, other, value]);
            run.exchange(&file, node, &[98, 4, value, other]);
            run.exchange(&file, node, &[98, value, other, 2]);
            run.exchange(&file, node, &[34, other, value]);
        }
    }
    run.assert_given(Operation::Edit, [0, 4, 5, 6, 7, 8, 9, 10], 10);
    run.finish("every map and value", IN_EVERY_MAP);
}

/// Cases of accepted and refused files, and disturbed ones, with records that are right or not.
#[test]
fn damaged_files() {
    let mut random = Random::new(827);
    let mut run = test_run();
    let mut files: Vec<Vec<u8>> = cases().into_iter().map(|case| case.bytes).collect();
    for _ in 0..2_500 {
        let (relations, count) = (random.between(1, 4), random.between(1, 8));
        let mut file = random.likely_file(relations, count);
        random.disturb_often(&mut file);
        files.push(file);
    }
    for file in files {
        let mut record = record(&mut random, 2, 3);
        run.exchange_for_numbers(&file, &record);
        random.disturb(&mut record);
        run.exchange(&file, 1, &record);
    }
    run.assert_given(Operation::Edit, (0..=11).chain([27]), 50);
    run.assert_given(Operation::Preview, 0..=12, 50);
    run.finish("damaged files", IN_DAMAGED_FILES);
}

/// The bytes beyond the prefix are those of the accepted file.
#[test]
fn every_prefix_of_files() {
    let mut random = Random::new(828);
    let mut run = test_run();
    let mut files = vec![e1().bytes, e10().bytes, longest_accepted()];
    files.extend((0..10).map(|_| random.any_accepted_file()));
    for file in files {
        for length in 0..file.len() {
            for record in [&[1, 0][..], &[], &[1, 0, 0]] {
                let answer = run.exchange(&file[..length], 0, record);
                assert_eq!(answer, if length < 2 { 1 } else { 4 });
            }
        }
    }
    run.finish("prefixes of files", IN_CUT_FILES);
}

/// Every node by a record that can stand for it, and by one of five bytes where there is one.
#[test]
fn every_node_of_the_greatest_files() {
    let mut random = Random::new(829);
    let mut run = test_run();
    for file in greatest_files() {
        for number in 0..64 {
            let record = record(&mut random, 8, number);
            run.exchange(&file, number.into(), &record);
            let longest = [26, number.saturating_sub(1), 5, 2, 0];
            let answer = run.exchange(&file, number.into(), &longest);
            assert_eq!(answer == 8, read_node(8, number, &longest).is_err());
        }
    }
    run.assert_given(Operation::Edit, [0, 8], 8);
    run.finish("greatest files", IN_GREATEST_FILES);
}
