//! The reference alone: schemas and Typing.

use type_formula_tests::examples::{
    cases, from_hexadecimal, join_of_eight, pairs_of_the_node_before, to_hexadecimal,
};
use type_formula_tests::formula_examples::FILLED_SCHEMA;
use type_formula_tests::pseudorandom::Random;
use type_formula_tests::reference::{
    assignment_of, encode_file, encode_record, encode_schema, infer, read_file, read_schema,
    type_of, verdict, Type, Verdict, FORMULA_LENGTH, OUTPUT_LENGTH, SCHEMA_LENGTH,
};
use type_formula_tests::reference_calls::{assert_length_counts, typing_of, typing_with};
use type_formula_tests::typing_examples::{
    e2_to_e4, in_each_of_eight, spread_over_eight, typing_cases, Answer, TypingCase, E3_SCHEMA,
    E4_SCHEMA,
};

/// Asserts a case's answer.
fn assert_case(case: &TypingCase) {
    assert_eq!(
        typing_with(&case.file, case.node, &case.schema, case.out_length),
        case.answer,
        "{}: {}",
        case.name,
        to_hexadecimal(&case.schema)
    );
}

/// Schemas that are read, with their m.
fn schemas(random: &mut Random) -> Vec<(u8, Vec<u8>)> {
    let written = [
        (3, FILLED_SCHEMA),
        (3, E3_SCHEMA),
        (1, "01 00 01 10 00"),
        (1, "ff ff 02 10 00 ff ff"),
        (2, "02 00 00 80"),
    ];
    let mut schemas: Vec<(u8, Vec<u8>)> = written
        .iter()
        .map(|&(relations, text)| (relations, from_hexadecimal(text)))
        .collect();
    schemas.push((8, encode_schema(&in_each_of_eight(1..271))));
    schemas.push((8, encode_schema(&spread_over_eight(1..271))));
    for _ in 0..100 {
        let (relations, ordinary) = (random.between(1, 8), random.below(30));
        let inferred = infer(&random.mild_file(relations, 5)).expect("accepted");
        let image = random.image(&inferred.formulas[4], relations, ordinary);
        if !image.iter().any(Type::is_empty) {
            schemas.push((relations, encode_schema(&image)));
        }
    }
    schemas
}

#[test]
fn e1_is_typed_as_e2_to_e4_say() {
    for case in e2_to_e4() {
        assert_case(&case);
    }
}

/// E2's schema with 4 in r2, and with 20 in r0 only is E4's, with 20 in r0 and r1 E3's.
#[test]
fn the_schemas_of_e3_and_e4_have_these_bytes() {
    let mut sets = read_schema(3, &from_hexadecimal(FILLED_SCHEMA)).expect("a schema");
    let wanted = [Type::from([1, 3]), Type::from([2, 3]), Type::from([4])];
    assert_eq!(sets, wanted);
    sets[0].insert(20);
    assert_eq!(encode_schema(&sets), from_hexadecimal(E4_SCHEMA));
    sets[1].insert(20);
    assert_eq!(encode_schema(&sets), from_hexadecimal(E3_SCHEMA));
}

#[test]
fn every_case_has_its_answer() {
    for case in typing_cases() {
        assert_case(&case);
    }
}

#[test]
fn typed_untyped_and_every_refusal_from_10_to_18_but_12_have_a_case() {
    let cases = typing_cases();
    let has =
        |is_wanted: fn(&Answer<Vec<u8>>) -> bool| cases.iter().any(|case| is_wanted(&case.answer));
    assert!(has(|answer| matches!(answer, Ok(Some(_)))));
    assert!(has(|answer| matches!(answer, Ok(None))));
    for refusal in [10, 11, 13, 14, 15, 16, 17, 18] {
        assert!(cases.iter().any(|case| case.answer == Err(refusal)));
    }
}

#[test]
fn records_have_these_bytes() {
    let bytes =
        |attributes: &[u32]| to_hexadecimal(&encode_record(&attributes.iter().copied().collect()));
    assert_eq!(bytes(&[]), "00 00");
    assert_eq!(bytes(&[1, 7, 8, 15]), "82 81");
    assert_eq!(bytes(&[16]), "01 00 01 10 00");
    assert_eq!(bytes(&[2, 256, 255]), "05 00 02 ff 00 00 01");
    assert_eq!(bytes(&[65_535, 15]), "01 80 01 ff ff");
    let longest = encode_record(&(1..271).collect());
    assert_eq!(longest.len(), OUTPUT_LENGTH);
    assert_eq!(longest[..5], [0xff, 0xff, 0xff, 16, 0]);
    assert_eq!(
        encode_schema(&in_each_of_eight(1..271)).len(),
        SCHEMA_LENGTH
    );
}

#[test]
fn what_was_read_is_written_as_the_same_bytes() {
    let mut random = Random::new(60);
    for (relations, bytes) in schemas(&mut random) {
        let read = read_schema(relations, &bytes).expect("a schema");
        assert_eq!(read.len(), usize::from(relations));
        assert_eq!(encode_schema(&read), bytes);
    }
    let mut read = 0;
    for _ in 0..200_000 {
        let (relations, length) = (random.between(1, 3), random.below(12));
        let bytes = random.likely_bytes(length);
        if let Ok(schema) = read_schema(relations, &bytes) {
            assert_eq!(encode_schema(&schema), bytes);
            read += 1;
        }
    }
    println!("{read} of 200,000 read");
    assert!(read >= 1_000);
}

#[test]
fn every_proper_prefix_of_a_schema_is_14_and_a_longer_one_17() {
    let mut random = Random::new(61);
    for (relations, bytes) in schemas(&mut random) {
        assert_length_counts(&mut random, &bytes, |bytes| read_schema(relations, bytes));
    }
}

/// 255 different ordinary attributes pass, 256 are 18, in any relations.
#[test]
fn ordinary_attributes_are_counted_once_however_they_are_spread() {
    let mut random = Random::new(62);
    for count in [1, 31, 254, 255, 256, 257, 300] {
        for _ in 0..50 {
            let attributes = random.ordinary_attributes(count).into_iter();
            let subsets = attributes.map(|attribute| (attribute, 1 + random.below(255)));
            let schema = assignment_of(8, subsets);
            let wanted = if count > 255 {
                Err(18)
            } else if schema.iter().any(Type::is_empty) {
                Err(25)
            } else {
                Ok(schema.clone())
            };
            assert_eq!(read_schema(8, &encode_schema(&schema)), wanted);
        }
    }
}

#[test]
fn a_refused_file_is_refused_first_of_all() {
    for case in cases().iter().filter(|case| case.answer != 0) {
        let number = case.answer;
        assert_eq!(typing_with(&case.bytes, usize::MAX, &[], 0), Err(number));
        assert_eq!(typing_with(&case.bytes, 0, &[0; 16], 513), Err(number));
    }
}

/// Images of instantiations, and such with an attribute added, dropped or moved.
#[test]
fn the_output_record_is_the_type_by_the_rules() {
    let mut random = Random::new(63);
    let (mut typed, mut untyped, mut empty) = (0, 0, 0);
    for round in 0..6_000 {
        let (bytes, file, sets) = random.file_with_sets_near_an_image(round % 6);
        let node = file.nodes.len() - 1;
        let schema = encode_schema(&sets);
        if sets.iter().any(Type::is_empty) {
            assert_eq!(typing_with(&bytes, node, &schema, OUTPUT_LENGTH), Err(25));
            empty += 1;
            continue;
        }
        let by_rules = type_of(&file, node, &sets);
        let given = typing_of(&bytes, node, &schema);
        assert_eq!(given, by_rules.as_ref().map(encode_record));
        match by_rules {
            Some(_) => typed += 1,
            None => untyped += 1,
        }
    }
    println!("{typed} typed, {untyped} untyped, {empty} with an empty record");
    assert!(typed >= 1_000 && untyped >= 1_000 && empty >= 100);
}

#[test]
fn a_witness_is_typed() {
    let mut random = Random::new(64);
    let mut typable = 0;
    for _ in 0..1_000 {
        let (relations, count) = (random.between(1, 8), random.between(1, 10));
        let bytes = random.mild_file(relations, count);
        let node = usize::from(random.between(0, count - 1));
        let mut work = vec![0; usize::from(count) * FORMULA_LENGTH];
        let mut schema = vec![0; SCHEMA_LENGTH];
        let answer = verdict(&bytes, node, &mut work, &mut schema);
        if let Verdict::Typable { length, .. } = answer {
            let output = typing_with(&bytes, node, &schema[..length], OUTPUT_LENGTH);
            assert_eq!(output.map(|output| output.is_some()), Ok(true));
            typable += 1;
        }
    }
    assert!(typable >= 500, "{typable}");
}

/// Each node is typed once, so shared operands do not multiply the steps.
#[test]
fn sixty_three_pairs_of_the_node_before_end() {
    let full = encode_schema(&in_each_of_eight(1..271));
    for bytes in pairs_of_the_node_before() {
        let empty = typing_with(&bytes, 63, &[0; 16], OUTPUT_LENGTH);
        assert_eq!(empty, Err(25));
        let output = typing_with(&bytes, 63, &full, OUTPUT_LENGTH).expect("not refused");
        let is_product = bytes[7] == 4;
        assert_eq!(output.is_none(), is_product);
    }
}

#[test]
fn every_node_of_the_join_of_eight_has_its_output() {
    let bytes = encode_file(8, &join_of_eight());
    let file = read_file(&bytes).expect("accepted");
    let sets = spread_over_eight(1..271);
    for node in 0..15 {
        let joined = if node < 8 {
            node..node + 1
        } else {
            0..node - 6
        };
        let wanted: Type = sets[joined].iter().flatten().copied().collect();
        assert_eq!(type_of(&file, node, &sets), Some(wanted.clone()));
        let output = typing_with(&bytes, node, &encode_schema(&sets), OUTPUT_LENGTH);
        assert_eq!(output, Ok(Some(encode_record(&wanted))));
    }
}
