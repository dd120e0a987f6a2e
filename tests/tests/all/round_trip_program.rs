//! The program `print_round_trip`, which runs Rattle's `record` and `apply_and_recover`, against the
//! reference. Needs the program.
//!
//! Its input is a node's number, the length of the file in two bytes, low first, the file, and then
//! the instantiation. It prints the length of the node's part of the file, that part, the answer of
//! `apply_and_recover` as a number (0, 255 or the refusal's), and with 0 the recovered bytes.

use type_formula_tests::examples::{e1, from_hexadecimal, to_hexadecimal};
use type_formula_tests::instantiation_examples::{E3_INSTANTIATION, FILLED_INSTANTIATION};
use type_formula_tests::programs;
use type_formula_tests::pseudorandom::Random;
use type_formula_tests::reference::{encode_instantiation, record};
use type_formula_tests::reference_calls::{apply_to, recover_from};

/// The input of the program.
fn input(node: u8, file: &[u8], instantiation: &[u8]) -> Vec<u8> {
    let length = u16::try_from(file.len()).expect("a length in two bytes");
    let [low, high] = length.to_le_bytes();
    [&[node, low, high], file, instantiation].concat()
}

/// What the program prints, by the reference, and the answer's number.
fn output(node: u8, file: &[u8], instantiation: &[u8]) -> (Vec<u8>, u8) {
    let node = usize::from(node);
    let part = &file[record(file, node).unwrap_or(0..0)];
    let (answer, recovered) = match apply_to(file, node, instantiation) {
        Ok((schema, _)) => {
            let recovered = recover_from(file, node, &schema).expect("not refused");
            let recovered = recovered.expect("typed");
            assert_eq!(recovered, instantiation);
            (0, recovered)
        }
        Err(refusal) => (refusal, Vec::new()),
    };
    let length = part.len() as u8;
    let printed = [&[length], part, &[answer], &recovered].concat();
    (printed, answer)
}

/// Compares what the program prints with the reference, and gives the answer's number.
fn compare(node: u8, file: &[u8], instantiation: &[u8]) -> u8 {
    let bytes = input(node, file, instantiation);
    let (wanted, answer) = output(node, file, instantiation);
    let given = programs::run("print_round_trip", &bytes);
    assert_eq!(given, wanted, "{}", to_hexadecimal(&bytes));
    answer
}

#[test]
fn the_instantiations_of_e1_are_recovered() {
    for instantiation in [FILLED_INSTANTIATION, E3_INSTANTIATION] {
        let instantiation = from_hexadecimal(instantiation);
        for node in 0..8 {
            compare(node, &e1().bytes, &instantiation);
        }
        assert_eq!(compare(6, &e1().bytes, &instantiation), 0);
    }
}

#[test]
fn random_and_disturbed_instantiations() {
    let mut random = Random::new(320);
    let mut answers = [0; 27];
    for round in 0..600 {
        let (relations, count) = (random.between(1, 8), random.between(1, 12));
        let (of_node, node, instantiation) = random.file_with_instantiation(relations, count, 60);
        let (mut file, mut bytes) = (of_node.bytes, encode_instantiation(&instantiation));
        match round % 6 {
            0 => random.disturb(&mut bytes),
            1 => random.disturb(&mut file),
            _ => {}
        }
        if file.len() >= 2 {
            answers[usize::from(compare(node as u8, &file, &bytes))] += 1;
        }
    }
    println!("{answers:?}");
    assert!(answers[0] >= 200 && answers[1..].iter().filter(|&&count| count > 0).count() >= 5);
}
