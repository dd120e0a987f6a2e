//! The listing program against the text of the reference. Needs the program.

use type_formula_tests::examples::{cases, e1, join_of_eight, longest_accepted, to_hexadecimal};
use type_formula_tests::formula_examples::{formula_examples, E1_LISTING};
use type_formula_tests::programs;
use type_formula_tests::pseudorandom::Random;
use type_formula_tests::reference::{encode_file, listing, Node};

/// Compares what the program prints with the reference's text, which it gives.
fn compare(bytes: &[u8]) -> String {
    let wanted = listing(bytes);
    let given = programs::run("list_formula", bytes);
    assert!(
        given == wanted.as_bytes(),
        "program:\n{}\nreference:\n{wanted}\n{}",
        String::from_utf8_lossy(&given),
        to_hexadecimal(bytes)
    );
    wanted
}

fn relation(relation: u8) -> Node {
    Node::Relation { relation }
}

/// The text as document 01 has it.
#[test]
fn e1_has_this_text() {
    assert_eq!(compare(&e1().bytes), E1_LISTING);
}

/// E1, which is the file of E2 to E4 too, and E5 to E10, E5 to E7 untypable.
#[test]
fn e1_and_e5_to_e10_have_their_texts() {
    for example in formula_examples() {
        assert_eq!(
            compare(&example.bytes()),
            example.listing,
            "{}",
            example.name
        );
    }
}

/// Every accepted prefix of the nodes of an example, so that each node is the last.
#[test]
fn every_node_of_the_examples_as_the_last() {
    for example in formula_examples() {
        for count in 1..=example.nodes.len() {
            compare(&encode_file(example.relations, &example.nodes[..count]));
        }
    }
}

/// No bytes, one byte, each refusal from 1 to 10, and accepted edges.
#[test]
fn examples_and_edges() {
    let mut refusals = [0; 11];
    for case in cases() {
        let text = compare(&case.bytes);
        if case.answer != 0 {
            assert_eq!(text, format!("refused {}\n", case.answer), "{}", case.name);
        }
        refusals[usize::from(case.answer)] += 1;
    }
    assert!(refusals.iter().all(|&count| count > 0), "{refusals:?}");
}

#[test]
fn every_prefix_of_e1() {
    let bytes = e1().bytes;
    for length in 0..bytes.len() {
        let refusal = if length < 2 { 1 } else { 4 };
        assert_eq!(compare(&bytes[..length]), format!("refused {refusal}\n"));
    }
}

/// Inputs longer than any accepted file, after accepted files of several lengths.
#[test]
fn long_inputs_that_begin_as_an_accepted_file_are_refused_with_10() {
    let mut random = Random::new(40);
    for length in [
        320, 321, 322, 323, 324, 400, 512, 4_096, 65_536, 65_537, 70_000,
    ] {
        for accepted in [e1().bytes, longest_accepted(), random.any_accepted_file()] {
            let after = random.bytes(length - accepted.len());
            let text = compare(&[accepted, after].concat());
            assert_eq!(text, "refused 10\n");
        }
    }
}

/// Long inputs of random bytes, also after a valid header and after valid nodes.
#[test]
fn long_random_inputs() {
    let mut random = Random::new(41);
    for length in [323, 400, 70_000]
        .into_iter()
        .flat_map(|length| [length; 6])
    {
        compare(&random.bytes(length));
        compare(&random.likely_bytes(length));
        let header = vec![random.between(1, 8), random.between(1, 64)];
        compare(&[header, random.likely_bytes(length - 2)].concat());
        let mut bytes = random.accepted_file(8, 40);
        bytes[1] = 64;
        let rest = length - bytes.len();
        bytes.extend(random.likely_bytes(rest));
        compare(&bytes);
    }
}

/// 255 type variables.
#[test]
fn a_join_of_eight_relations() {
    let mut nodes = join_of_eight();
    let text = compare(&encode_file(8, &nodes));
    let output = text.lines().last().expect("a line");
    assert!(output.starts_with("out: 01 02 03 "));
    assert_eq!(output.split(' ').count(), 256);
    let set = 0xfffe;
    nodes.push(Node::Selection { operand: 14, set });
    let text = compare(&encode_file(8, &nodes));
    assert_eq!(text.lines().count(), 25);
}

#[test]
fn attributes_named_only_where_the_last_node_does_not_reach() {
    let unused = [
        Node::Selection {
            operand: 0,
            set: 0x8200,
        },
        Node::Projection { operand: 0, set: 6 },
        Node::Renaming {
            operand: 0,
            old: 12,
            new: 3,
        },
        Node::Renaming {
            operand: 0,
            old: 7,
            new: 7,
        },
        Node::ProjectingOut {
            operand: 0,
            old: 10,
        },
    ];
    for node in unused {
        compare(&encode_file(2, &[relation(1), node, relation(1)]));
    }
    let all: Vec<Node> = [relation(1)]
        .into_iter()
        .chain(unused)
        .chain([relation(0)])
        .collect();
    let text = compare(&encode_file(2, &all));
    let named: Vec<&str> = text
        .lines()
        .filter_map(|line| line.strip_prefix('a')?.split(':').next())
        .collect();
    assert_eq!(named, ["1", "2", "3", "7", "9", "10", "12", "15"]);
}

/// Random accepted files of every m, both verdicts among them.
#[test]
fn random_accepted_files() {
    let mut random = Random::new(42);
    let (mut typable, mut untypable) = (0, 0);
    for relations in 1..=8 {
        for round in 0..30 {
            let count = random.between(1, if round % 3 == 0 { 64 } else { 10 });
            let text = compare(&match round % 2 {
                0 => random.accepted_file(relations, count),
                _ => random.mild_file(relations, count),
            });
            match text.lines().next().expect("a line").ends_with(" typable") {
                true => typable += 1,
                false => untypable += 1,
            }
        }
    }
    println!("{typable} typable, {untypable} untypable");
    assert!(typable >= 50 && untypable >= 30);
}

#[test]
fn disturbed_accepted_files() {
    let mut random = Random::new(43);
    for _ in 0..200 {
        let (relations, count) = (random.between(1, 8), random.between(1, 10));
        let mut bytes = random.mild_file(relations, count);
        random.disturb(&mut bytes);
        compare(&bytes);
    }
}
