//! The reference's reader of queries alone, against facts stated in document 02, Point 2.

use type_formula_tests::examples::{e10, from_hexadecimal};
use type_formula_tests::formula_examples::formula_examples;
use type_formula_tests::pseudorandom::Random;
use type_formula_tests::query_examples::{extreme_texts, query_cases, EXAMPLES};
use type_formula_tests::random_queries::{Faults, ALPHABET};
use type_formula_tests::reference::{
    infer, listing, read_file, FILE_LENGTH, LONGEST_TEXT, TEXT_NOT_IN_LANGUAGE, TEXT_TOO_LONG,
};
use type_formula_tests::reference_calls::{parse, parse_with};

/// A text as one reads it.
fn shown(text: &[u8]) -> String {
    String::from_utf8_lossy(text).into_owned()
}

/// The examples that are trees have the bytes of document 01.
#[test]
fn examples_have_their_files() {
    for (name, relations, text, file) in EXAMPLES {
        let given = parse(relations, text.as_bytes());
        assert_eq!(given, Ok(from_hexadecimal(file)), "{name}");
        let examples = formula_examples();
        let example = examples.iter().find(|example| example.name == name);
        let example = example.expect("an example");
        let given = given.expect("a query");
        assert_eq!(given, example.bytes(), "{name}");
        assert_eq!(listing(&given), example.listing, "{name}");
    }
}

/// E7 and E10 use a node twice; as text they have one node more, and the same formula.
#[test]
fn a_relation_that_is_written_twice_is_two_nodes() {
    let e7 = from_hexadecimal("01 02 01 00 0e 00 00 04");
    for (relations, text, shared) in [
        (1, "(r0#r0)", e7),
        (4, "(S[1](r0*r1)*((r0#r2)-r3))", e10().bytes),
    ] {
        let file = parse(relations, text.as_bytes()).expect("a query");
        assert_eq!(file[1], shared[1] + 1);
        let last = |file: &[u8]| infer(file).expect("accepted").formulas.pop();
        assert_eq!(last(&file), last(&shared), "{text}");
    }
}

#[test]
fn every_case_has_its_answer() {
    for case in query_cases() {
        let given = parse(case.relations, &case.text);
        assert_eq!(given, case.answer, "{}: {}", case.name, shown(&case.text));
    }
}

#[test]
fn every_answer_has_a_case() {
    let answers: Vec<u8> = query_cases()
        .iter()
        .map(|case| case.answer.as_ref().err().copied().unwrap_or(0))
        .collect();
    for answer in [0, 2, 7, 9, 22, 23, 24] {
        assert!(answers.contains(&answer), "{answer}");
    }
}

/// The slice is tested after m and before the text.
#[test]
fn a_short_slice_is_13_whatever_the_text_is() {
    for case in query_cases() {
        let answer = match case.relations {
            1..=8 => 13,
            _ => 2,
        };
        for length in [0, 1, FILE_LENGTH - 1] {
            let given = parse_with(case.relations, &case.text, length);
            assert_eq!(given, Err(answer), "{}: {}", case.name, shown(&case.text));
        }
        let longer = parse_with(case.relations, &case.text, 2 * FILE_LENGTH);
        assert_eq!(longer, case.answer, "{}", case.name);
    }
}

/// What is printed of a tree is read with the bytes that the tree gives, or with its refusal.
#[test]
fn printed_queries_are_read_back() {
    let mut random = Random::new(600);
    for _ in 0..20_000 {
        let relations = random.between(1, 8);
        let query = random.any_query(relations);
        let given = parse(relations, query.text().as_bytes());
        assert_eq!(given, query.answer(relations), "{}", query.text());
        if let Ok(file) = given {
            let read = read_file(&file).expect("accepted");
            assert_eq!(read.relations, relations);
            assert_eq!(read.nodes.len(), query.node_count());
        }
    }
}

/// No query begins another one.
#[test]
fn a_query_cut_off_or_followed_by_more_is_none() {
    let mut random = Random::new(601);
    for _ in 0..2_000 {
        let nodes = 1 + random.below(12);
        let text = random.query(8, nodes, Faults::None).text().into_bytes();
        for length in 0..text.len() {
            assert_eq!(parse(8, &text[..length]), Err(TEXT_NOT_IN_LANGUAGE));
        }
        for byte in ALPHABET {
            let longer = [&text[..], &[*byte]].concat();
            assert_eq!(parse(8, &longer), Err(TEXT_NOT_IN_LANGUAGE));
        }
    }
}

#[test]
fn extreme_texts_are_refused() {
    for text in extreme_texts() {
        let refusal = match text.len() > LONGEST_TEXT {
            true => TEXT_TOO_LONG,
            false => TEXT_NOT_IN_LANGUAGE,
        };
        assert_eq!(parse(1, &text), Err(refusal), "{}", shown(&text));
    }
}

#[test]
fn every_sign_and_letter_occurs_in_random_queries() {
    let mut random = Random::new(602);
    let texts: String = (0..200)
        .map(|_| random.query(8, 20, Faults::OneIn(20)).text())
        .collect();
    for &byte in ALPHABET {
        let count = texts.bytes().filter(|&other| other == byte).count();
        assert!(count > 50, "{}", byte as char);
    }
}
