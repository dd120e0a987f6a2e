//! The engine against the reference: accepting expression files, Record, and
//! reading one node.

use type_formula_tests::answer::Operation;
use type_formula_tests::engine;
use type_formula_tests::examples::{
    all_nodes_with_set, cases, e1, e10, longest_accepted, to_hexadecimal, Example, LONGEST_ACCEPTED,
};
use type_formula_tests::pseudorandom::Random;
use type_formula_tests::reference::LEGAL_MAPS;
use type_formula_tests::test_run::TestRun;

/// The least number of comparisons of each test.
const IN_CASES: u64 = 70_000;
const IN_ACCEPTED_FILES: u64 = 400_000;
const IN_RANDOM_BYTES: u64 = 190_000;
const IN_BYTES_AFTER_HEADER: u64 = 280_000;
const IN_PREFIXES: u64 = 140_000;
const IN_CHANGES: u64 = 230_000;
const IN_DISTURBED_FILES: u64 = 650_000;
const IN_LONG_FILES: u64 = 60_000;
const IN_RANDOM_NODES: u64 = 600_000;
const IN_LEGAL_MAPS: u64 = 500_000;
const IN_EVERY_MAP: u64 = 40_000;
const IN_EVERY_FIELD: u64 = 780_000;

/// Accepting and Record alone reach a million; so does reading one node.
const _: () = assert!(
    IN_CASES
        + IN_ACCEPTED_FILES
        + IN_RANDOM_BYTES
        + IN_BYTES_AFTER_HEADER
        + IN_PREFIXES
        + IN_CHANGES
        + IN_DISTURBED_FILES
        + IN_LONG_FILES
        >= 1_000_000
);
const _: () = assert!(IN_RANDOM_NODES + IN_LEGAL_MAPS + IN_EVERY_MAP + IN_EVERY_FIELD >= 1_000_000);

/// A run with random numbers before each call.
fn test_run() -> TestRun {
    TestRun::new(9)
}

/// Asserts an example's facts of the engine, without the reference.
fn assert_example(example: &Example) {
    let bytes = &example.bytes;
    let text = to_hexadecimal(bytes);
    let (mut relations, mut nodes) = (0xaa, 0xbb);
    let answer = engine::accept(bytes, &mut relations, &mut nodes);
    let wanted = (0, example.relations, example.nodes);
    assert_eq!((answer, relations, nodes), wanted, "{text}");
    let mut start = usize::MAX;
    for (node, part) in example.parts.iter().enumerate() {
        let length = engine::record(bytes, node, &mut start);
        let wanted = (part.start, part.len());
        assert_eq!((start, length), wanted, "node {node} of {text}");
    }
    for node in [example.parts.len(), 255, 256, 1 << 32, usize::MAX] {
        start = usize::MAX;
        let length = engine::record(bytes, node, &mut start);
        assert_eq!((start, length), (0, 0), "node {node} of {text}");
    }
}

#[test]
fn e1_is_accepted_with_3_relations_7_nodes_and_its_records() {
    assert_example(&e1());
}

#[test]
fn e10_is_accepted_with_4_relations_9_nodes_and_its_records() {
    assert_example(&e10());
}

#[test]
fn examples_and_edges_have_their_answers() {
    let mut run = test_run();
    for case in cases() {
        let answer = engine::accept(&case.bytes, &mut 0, &mut 0);
        let bytes = to_hexadecimal(&case.bytes);
        assert_eq!(answer, case.answer, "{}: {bytes}", case.name);
        for length in 0..=case.bytes.len().min(400) {
            run.accept_and_record(&case.bytes[..length]);
        }
        run.accept_and_record(&case.bytes);
    }
    run.assert_given(Operation::Accept, 0..=10, 5);
    run.finish("examples and edges", IN_CASES);
}

#[test]
fn random_accepted_files_of_every_m_and_n() {
    let mut random = Random::new(10);
    let mut run = test_run();
    for relations in 1..=8 {
        for count in (1..=64).flat_map(|count| [count; 10]) {
            let bytes = random.accepted_file(relations, count);
            let file = run.accept(&bytes).expect("accepted");
            assert_eq!(file.nodes.len(), usize::from(count));
            run.accept_and_record(&bytes);
            for (number, part) in file.parts.iter().enumerate() {
                run.read_node(relations, number as u8, &bytes[part.start..]);
            }
        }
    }
    run.finish("accepted files", IN_ACCEPTED_FILES);
}

#[test]
fn random_bytes_of_lengths_0_to_400() {
    let mut random = Random::new(11);
    let mut run = test_run();
    for length in (0..=400).flat_map(|length| [length; 15]) {
        run.accept_and_record(&random.bytes(length));
        run.accept_and_record(&random.likely_bytes(length));
    }
    run.assert_given(Operation::Accept, [1, 2, 3, 5], 30);
    run.finish("random bytes", IN_RANDOM_BYTES);
}

/// Random bytes after m and n, and random bytes after eight accepted nodes.
#[test]
fn random_bytes_after_a_valid_header_or_after_valid_nodes() {
    let mut random = Random::new(12);
    let mut run = test_run();
    for length in (0..=400).flat_map(|length| [length; 15]) {
        let header = vec![random.between(1, 8), random.between(1, 64)];
        run.accept_and_record(&[header.clone(), random.bytes(length)].concat());
        run.accept_and_record(&[header, random.likely_bytes(length)].concat());
        let mut bytes = random.accepted_file(8, 8);
        bytes[1] = random.between(8, 64);
        bytes.extend(random.likely_bytes(length));
        run.accept_and_record(&bytes);
    }
    run.assert_given(Operation::Accept, 4..=10, 10);
    run.finish("bytes after a valid header", IN_BYTES_AFTER_HEADER);
}

/// The bytes beyond the prefix are those of the accepted file, so an engine that
/// read past the length given to it would accept.
#[test]
fn every_prefix_of_accepted_files() {
    let mut random = Random::new(13);
    let mut files = vec![e1().bytes, e10().bytes, longest_accepted()];
    files.extend((0..60).map(|_| random.any_accepted_file()));
    let mut run = test_run();
    for bytes in files {
        for length in 0..bytes.len() {
            let answer = run.accept_and_record(&bytes[..length]);
            assert_eq!(answer, if length < 2 { 1 } else { 4 });
        }
        assert_eq!(run.accept_and_record(&bytes), 0);
    }
    run.finish("prefixes", IN_PREFIXES);
}

#[test]
fn every_change_of_one_byte_of_e1_and_e10() {
    let mut run = test_run();
    for bytes in [e1().bytes, e10().bytes] {
        for place in 0..bytes.len() {
            for value in (0..=255).filter(|&value| value != bytes[place]) {
                let mut changed = bytes.clone();
                changed[place] = value;
                run.accept_and_record(&changed);
            }
        }
    }
    run.assert_given(Operation::Accept, [0, 2, 3, 4, 5, 6, 7, 8, 9, 10], 5);
    run.finish("changes of one byte", IN_CHANGES);
}

#[test]
fn disturbed_accepted_files() {
    let mut random = Random::new(14);
    let mut run = test_run();
    for round in 0..40_000 {
        let (relations, count) = match round % 2 {
            0 => (random.between(1, 8), random.between(1, 64)),
            _ => (random.between(1, 3), random.between(1, 6)),
        };
        let mut bytes = random.accepted_file(relations, count);
        for _ in 0..random.between(1, 3) {
            random.disturb(&mut bytes);
        }
        run.accept_and_record(&bytes);
    }
    run.assert_given(Operation::Accept, 0..=10, 100);
    run.finish("disturbed files", IN_DISTURBED_FILES);
}

/// Files at the greatest accepted length and of lengths up to 323, accepted or not.
#[test]
fn files_at_and_above_the_greatest_accepted_length() {
    let mut random = Random::new(15);
    let mut run = test_run();
    let longest = longest_accepted();
    assert_eq!(longest.len(), LONGEST_ACCEPTED);
    assert_eq!(run.accept_and_record(&longest), 0);
    for length in LONGEST_ACCEPTED + 1..=323 {
        for _ in 0..500 {
            let after = random.likely_bytes(length - LONGEST_ACCEPTED);
            assert_eq!(run.accept_and_record(&[&longest[..], &after].concat()), 10);
            let mut disturbed = longest.clone();
            random.disturb(&mut disturbed);
            disturbed.resize(length, 0);
            run.accept_and_record(&disturbed);
        }
    }
    let full = all_nodes_with_set();
    assert_eq!((full.len(), run.accept_and_record(&full)), (322, 8));
    let longer = [&full[..], &[0]].concat();
    assert_eq!((longer.len(), run.accept_and_record(&longer)), (323, 8));
    run.finish("long files", IN_LONG_FILES);
}

#[test]
fn one_node_of_random_bytes() {
    let mut random = Random::new(16);
    let mut run = test_run();
    for _ in 0..300_000 {
        let (relations, number) = (random.byte(), random.byte());
        let length = random.below(12);
        run.read_node(relations, number, &random.bytes(length));
        run.read_node(relations, number, &random.likely_bytes(length));
    }
    run.assert_given(Operation::ReadNode, [0, 4, 5, 6, 7, 8, 9], 100);
    run.finish("one node of random bytes", IN_RANDOM_NODES);
}

#[test]
fn one_node_of_each_legal_map_with_random_fields() {
    let mut random = Random::new(17);
    let mut run = test_run();
    for round in 0..100_000 {
        let (relations, number) = match round % 2 {
            0 => (random.byte(), random.byte()),
            _ => (random.between(1, 8), random.between(0, 63)),
        };
        for map in LEGAL_MAPS {
            let length = match random.below(8) {
                0 => random.below(5),
                1 => 300,
                _ => 4 + random.below(5),
            };
            let bytes = [vec![map], random.likely_bytes(length)].concat();
            run.read_node(relations, number, &bytes);
        }
    }
    run.assert_given(Operation::ReadNode, [0, 4, 6, 7, 8, 9], 1_000);
    run.finish("one node of each legal map", IN_LEGAL_MAPS);
}

#[test]
fn one_node_of_every_map_and_length() {
    let mut random = Random::new(18);
    let mut run = test_run();
    run.read_node(8, 63, &[]);
    for map in 0..=255 {
        for length in 0..=8 {
            for _ in 0..20 {
                let bytes = [vec![map], random.likely_bytes(length)].concat();
                run.read_node(random.byte(), random.byte(), &bytes);
            }
        }
    }
    run.finish("one node of every map", IN_EVERY_MAP);
}

/// Every pair of values of two bytes that a condition compares or that make up one
/// field, the other fields being legal.
#[test]
fn one_node_with_every_value_of_each_field() {
    let mut run = test_run();
    for first in 0..=255 {
        for second in 0..=255 {
            run.read_node(second, 1, &[1, first]);
            run.read_node(1, second, &[14, first, 0, 1]);
            run.read_node(1, second, &[14, 0, first, 4]);
            run.read_node(1, second, &[26, first, 5, 2, 0]);
            run.read_node(1, second, &[98, first, 1, 2]);
            run.read_node(1, second, &[34, first, 1]);
            run.read_node(1, 1, &[26, 0, 5, first, second]);
            run.read_node(1, 1, &[26, 0, 6, first, second]);
            run.read_node(1, 1, &[26, 0, first, second, 0]);
            run.read_node(1, 2, &[14, 0, second, first]);
            run.read_node(1, 1, &[98, 0, first, second]);
            run.read_node(1, 2, &[34, second, first]);
        }
    }
    run.assert_given(Operation::ReadNode, [0, 6, 7, 8, 9], 1_000);
    run.finish("every value of each field", IN_EVERY_FIELD);
}
