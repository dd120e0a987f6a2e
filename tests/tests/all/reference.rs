//! The reference alone, against facts stated in document 01.

use type_formula_tests::examples::{
    all_nodes_with_set, cases, e1, e10, e10_nodes, e1_nodes, from_hexadecimal, longest_accepted,
    to_hexadecimal, Example, LONGEST_ACCEPTED,
};
use type_formula_tests::pseudorandom::Random;
use type_formula_tests::reference::{
    encode_file, encode_node, read_file, read_node, record, Node, LEGAL_MAPS,
};

/// One node of each case.
const EACH_CASE: [Node; 9] = [
    Node::Relation { relation: 2 },
    Node::Union { left: 1, right: 2 },
    Node::Difference { left: 1, right: 2 },
    Node::NaturalJoin { left: 1, right: 2 },
    Node::Product { left: 1, right: 2 },
    Node::Selection {
        operand: 1,
        set: 0x8102,
    },
    Node::Projection {
        operand: 1,
        set: 0x8102,
    },
    Node::Renaming {
        operand: 1,
        old: 3,
        new: 15,
    },
    Node::ProjectingOut { operand: 1, old: 3 },
];

fn assert_example(example: &Example, nodes: &[Node]) {
    let file = read_file(&example.bytes).expect("accepted");
    assert_eq!(file.relations, example.relations);
    assert_eq!(file.nodes, nodes);
    assert_eq!(file.nodes.len(), usize::from(example.nodes));
    assert_eq!(file.parts, example.parts);
    for (number, part) in example.parts.iter().enumerate() {
        assert_eq!(record(&example.bytes, number), Some(part.clone()));
    }
    assert_eq!(record(&example.bytes, nodes.len()), None);
    assert_eq!(record(&example.bytes, usize::MAX), None);
}

#[test]
fn e1_is_accepted_with_its_nodes_and_parts() {
    assert_example(&e1(), &e1_nodes());
    assert_eq!(encode_file(3, &e1_nodes()), e1().bytes);
}

#[test]
fn e10_is_accepted_with_its_nodes_and_parts() {
    assert_example(&e10(), &e10_nodes());
    let bytes = "04 09 01 00 01 01 0e 00 01 03 1a 02 05 02 00 01 02 \
                 0e 00 04 04 01 03 0e 05 06 02 0e 03 07 03";
    assert_eq!(e10().bytes, from_hexadecimal(bytes));
}

#[test]
fn every_case_has_its_answer() {
    for case in cases() {
        let answer = read_file(&case.bytes).err().unwrap_or(0);
        let bytes = to_hexadecimal(&case.bytes);
        assert_eq!(answer, case.answer, "{}: {bytes}", case.name);
    }
}

#[test]
fn every_answer_from_0_to_10_has_a_case() {
    for answer in 0..=10 {
        assert!(cases().iter().any(|case| case.answer == answer), "{answer}");
    }
}

#[test]
fn each_node_case_has_its_bytes() {
    let encoded: Vec<String> = EACH_CASE
        .iter()
        .map(|node| to_hexadecimal(&encode_node(node)))
        .collect();
    let expected = [
        "01 02",
        "0e 01 02 01",
        "0e 01 02 02",
        "0e 01 02 03",
        "0e 01 02 04",
        "1a 01 05 02 81",
        "1a 01 06 02 81",
        "62 01 03 0f",
        "22 01 03",
    ];
    assert_eq!(encoded, expected);
}

#[test]
fn each_node_case_is_read_back() {
    for node in EACH_CASE {
        let bytes = encode_node(&node);
        assert_eq!(read_node(3, 3, &bytes), Ok((node, bytes.len())));
        let longer = [bytes.clone(), vec![0xff; 9]].concat();
        assert_eq!(read_node(3, 3, &longer), Ok((node, bytes.len())));
    }
}

#[test]
fn each_node_case_cut_is_4() {
    for node in EACH_CASE {
        let bytes = encode_node(&node);
        for length in 0..bytes.len() {
            assert_eq!(read_node(3, 3, &bytes[..length]), Err(4));
        }
    }
}

#[test]
fn every_other_map_is_5_however_many_bytes_follow() {
    for map in (0..=255).filter(|map| !LEGAL_MAPS.contains(map)) {
        for length in 1..=8 {
            let mut bytes = vec![1; length];
            bytes[0] = map;
            assert_eq!(read_node(8, 63, &bytes), Err(5));
        }
    }
}

#[test]
fn nodes_are_read_back_from_encoded_files_and_parts_join_without_gaps() {
    let mut random = Random::new(1);
    for relations in 1..=8 {
        for count in 1..=64 {
            let nodes = random.nodes(relations, count);
            let bytes = encode_file(relations, &nodes);
            let file = read_file(&bytes).expect("accepted");
            assert_eq!((file.relations, &file.nodes), (relations, &nodes));
            let mut start = 2;
            for (node, part) in nodes.iter().zip(&file.parts) {
                assert_eq!(part.start, start);
                assert_eq!(bytes[part.clone()], encode_node(node));
                start = part.end;
            }
            assert_eq!(start, bytes.len());
        }
    }
}

#[test]
fn every_proper_prefix_of_an_accepted_file_is_1_or_4() {
    let mut random = Random::new(2);
    for _ in 0..100 {
        let bytes = random.any_accepted_file();
        for length in 0..bytes.len() {
            let refusal = if length < 2 { 1 } else { 4 };
            assert_eq!(read_file(&bytes[..length]), Err(refusal));
        }
    }
}

#[test]
fn the_longest_accepted_file_has_319_bytes() {
    assert_eq!(LONGEST_ACCEPTED, 319);
    assert_eq!(longest_accepted().len(), LONGEST_ACCEPTED);
    assert!(read_file(&longest_accepted()).is_ok());
    assert_eq!(all_nodes_with_set().len(), 322);
    assert_eq!(read_file(&all_nodes_with_set()), Err(8));
}

#[test]
fn a_refused_file_has_no_record() {
    for case in cases().iter().filter(|case| case.answer != 0) {
        for node in [0, 1, 63, 64, 255, usize::MAX] {
            assert_eq!(record(&case.bytes, node), None, "{}", case.name);
        }
    }
}

#[test]
fn every_case_of_node_occurs_in_random_files() {
    let mut random = Random::new(3);
    let nodes: Vec<Node> = (0..100).flat_map(|_| random.nodes(8, 64)).collect();
    for node in EACH_CASE {
        let same_case =
            |other: &&Node| std::mem::discriminant(*other) == std::mem::discriminant(&node);
        assert!(nodes.iter().filter(same_case).count() > 100, "{node:?}");
    }
}
