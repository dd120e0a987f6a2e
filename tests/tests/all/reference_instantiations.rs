//! The reference alone: instantiations, Apply and Recover.

use type_formula_tests::answer::Answer;
use type_formula_tests::examples::{
    cases, e1, from_hexadecimal, join_of_eight, pairs_of_the_node_before, three_subsets,
    to_hexadecimal,
};
use type_formula_tests::formula_examples::FILLED_SCHEMA;
use type_formula_tests::instantiation_examples::{
    apply_cases, instances, recover_cases, ApplyCase, RecoverCase, E3_INSTANTIATION,
    FILLED_INSTANTIATION,
};
use type_formula_tests::pseudorandom::Random;
use type_formula_tests::reference::{
    assignment_of, encode_file, encode_instantiation, encode_record, encode_schema, infer,
    is_allowed, read_instantiation, read_schema, type_of, type_variables, untypable_attribute,
    Formula, Inferred, Instantiation, Type, ATTRIBUTE_IN_TWO_LISTS, EMPTY_RECORD, FORMULA_LENGTH,
    IMAGE_NOT_FILLED, INSTANTIATION_LENGTH, LISTS_START, OUTPUT_LENGTH, SCHEMA_LENGTH,
    STANDING_BIT_NO_TYPE_VARIABLE, SUBSET_NOT_ALLOWED, TOO_MANY_ORDINARY_ATTRIBUTES,
};
use type_formula_tests::reference_calls::{
    apply_to, apply_with, assert_length_counts, recover_from, recover_with, typing_of,
};
use type_formula_tests::typing_examples::{in_each_of_eight, E3_SCHEMA, E4_SCHEMA};

/// Asserts a case's answer.
fn assert_apply(case: &ApplyCase) {
    assert_eq!(
        apply_with(&case.file, case.node, &case.instantiation, case.lengths),
        case.answer,
        "{}: {}",
        case.name,
        to_hexadecimal(&case.instantiation)
    );
}

fn assert_recover(case: &RecoverCase) {
    assert_eq!(
        recover_with(&case.file, case.node, &case.schema, case.lengths),
        case.answer,
        "{}: {}",
        case.name,
        to_hexadecimal(&case.schema)
    );
}

/// A typable node of a random file, with its file's bytes.
fn typable_node(random: &mut Random) -> (Vec<u8>, Inferred, usize) {
    loop {
        let (relations, count) = (random.between(1, 8), random.between(1, 12));
        let bytes = random.mild_file(relations, count);
        let inferred = infer(&bytes).expect("accepted");
        let node = random.below(usize::from(count));
        if untypable_attribute(&inferred.formulas[node], relations).is_none() {
            return (bytes, inferred, node);
        }
    }
}

/// How many ordinary attributes an instantiation gets: most often few, sometimes up to
/// 255.
fn ordinary_count(random: &mut Random) -> usize {
    match random.below(4) {
        0 => random.below(256),
        _ => random.below(12),
    }
}

/// Instantiations that are read.
fn instantiations(random: &mut Random) -> Vec<Vec<u8>> {
    let mut all: Vec<Vec<u8>> = instances()
        .into_iter()
        .map(|instance| instance.instantiation)
        .collect();
    for _ in 0..100 {
        let (_, inferred, node) = typable_node(random);
        let ordinary = ordinary_count(random);
        let instantiation = random.instantiation(&inferred.formulas[node], ordinary);
        all.push(encode_instantiation(&instantiation));
    }
    all
}

#[test]
fn the_schema_of_e3_without_20_is_recovered_and_applied() {
    let (file, filled) = (e1().bytes, from_hexadecimal(FILLED_SCHEMA));
    let instantiation = from_hexadecimal(FILLED_INSTANTIATION);
    let recovered = recover_from(&file, 6, &filled);
    assert_eq!(recovered, Ok(Some(instantiation.clone())));
    let output = from_hexadecimal("1c 00");
    assert_eq!(apply_to(&file, 6, &instantiation), Ok((filled, output)));
}

#[test]
fn e3_is_recovered_and_applied_and_e4_is_untyped() {
    let (file, e3) = (e1().bytes, from_hexadecimal(E3_SCHEMA));
    let instantiation = from_hexadecimal(E3_INSTANTIATION);
    assert_eq!(recover_from(&file, 6, &e3), Ok(Some(instantiation.clone())));
    let output = from_hexadecimal("1d 00 01 14 00");
    assert_eq!(apply_to(&file, 6, &instantiation), Ok((e3, output)));
    let e4 = from_hexadecimal(E4_SCHEMA);
    assert_eq!(recover_from(&file, 6, &e4), Ok(None));
}

#[test]
fn every_case_has_its_answer() {
    apply_cases().iter().for_each(assert_apply);
    recover_cases().iter().for_each(assert_recover);
}

#[test]
fn every_answer_from_10_on_has_a_case() {
    let (applied, recovered) = (apply_cases(), recover_cases());
    assert!(applied.iter().any(|case| case.answer.is_ok()));
    for refusal in (10..=SUBSET_NOT_ALLOWED).chain([IMAGE_NOT_FILLED]) {
        assert!(applied.iter().any(|case| case.answer == Err(refusal)));
    }
    assert!(recovered
        .iter()
        .any(|case| matches!(case.answer, Ok(Some(_)))));
    assert!(recovered.iter().any(|case| case.answer == Ok(None)));
    for refusal in (10..=TOO_MANY_ORDINARY_ATTRIBUTES).chain([EMPTY_RECORD]) {
        assert!(recovered.iter().any(|case| case.answer == Err(refusal)));
    }
}

/// 47 bytes without a list, 812 with 255 lists of one attribute, and the longest schema
/// and output record.
#[test]
fn longest_and_shortest_have_these_lengths() {
    let lengths = |name: &str| {
        let instances = instances();
        let instance = instances.iter().find(|instance| instance.name == name);
        let instance = instance.expect("an instance");
        [
            instance.instantiation.len(),
            instance.schema.len(),
            instance.output.len(),
        ]
    };
    assert_eq!(lengths("shortest, 47 bytes"), [47, 16, 2]);
    let longest = lengths("longest, all special in each");
    assert_eq!(
        longest,
        [INSTANTIATION_LENGTH, 8 * (3 + 2 * 128), OUTPUT_LENGTH]
    );
    let one_list = lengths("one list of 255, longest schema");
    assert_eq!(one_list, [47 + 511, SCHEMA_LENGTH, OUTPUT_LENGTH]);
    let longest = instances()
        .into_iter()
        .map(|instance| instance.instantiation.len());
    assert_eq!(longest.max(), Some(INSTANTIATION_LENGTH));
}

#[test]
fn instantiations_have_these_bytes() {
    let mut instantiation = Instantiation::default();
    assert_eq!(encode_instantiation(&instantiation), [0; 47]);
    instantiation.subsets[0] = 3;
    instantiation.subsets[14] = 255;
    for (s, attribute) in [(255, 16), (9, 256), (9, 255), (7, 65_535)] {
        instantiation.insert(s, attribute);
    }
    let bytes = encode_instantiation(&instantiation);
    let mut front = [0; 47];
    (front[0], front[14]) = (3, 255);
    (front[15], front[16], front[46]) = (0x80, 0x02, 0x80);
    assert_eq!(bytes[..LISTS_START], front);
    let lists = "01 ff ff 02 ff 00 00 01 01 10 00";
    assert_eq!(to_hexadecimal(&bytes[LISTS_START..]), lists);
    assert_eq!(read_instantiation(&bytes), Ok(instantiation));
}

#[test]
fn what_was_read_is_written_as_the_same_bytes() {
    let mut random = Random::new(80);
    for bytes in instantiations(&mut random) {
        let read = read_instantiation(&bytes).expect("an instantiation");
        assert_eq!(encode_instantiation(&read), bytes);
    }
    let mut read = 0;
    for _ in 0..200_000 {
        let mut bytes = random.bytes(15);
        let mut map = [0; 32];
        (0..random.below(3)).for_each(|_| map[random.below(32)] = random.byte() & random.byte());
        bytes.extend(map);
        let length = random.below(12);
        bytes.extend(random.likely_bytes(length));
        if let Ok(instantiation) = read_instantiation(&bytes) {
            assert_eq!(encode_instantiation(&instantiation), bytes);
            read += 1;
        }
    }
    println!("{read} of 200,000 read");
    assert!(read >= 1_000);
}

#[test]
fn every_proper_prefix_of_an_instantiation_is_14_and_a_longer_one_17() {
    let mut random = Random::new(81);
    for bytes in instantiations(&mut random) {
        assert_length_counts(&mut random, &bytes, read_instantiation);
    }
}

/// 255 different ordinary attributes pass, 256 are 18, in any lists; one of them in two
/// lists is 19.
#[test]
fn ordinary_attributes_are_counted_however_they_are_spread() {
    let mut random = Random::new(82);
    for count in [1, 31, 254, 255, 256, 257, 300] {
        for _ in 0..50 {
            let mut instantiation = Instantiation::default();
            let lists = 2 + random.below(255);
            for (place, attribute) in (0..).zip(random.ordinary_attributes(count)) {
                let s = if place < 2 {
                    place
                } else {
                    random.below(lists)
                };
                instantiation.insert(s, attribute);
            }
            let wanted = if count > 255 {
                Err(TOO_MANY_ORDINARY_ATTRIBUTES)
            } else {
                Ok(instantiation.clone())
            };
            let bytes = encode_instantiation(&instantiation);
            assert_eq!(read_instantiation(&bytes), wanted);
            let attribute = instantiation.lists[&0].first().copied();
            instantiation.insert(1 + random.below(255), attribute.expect("one at least"));
            let bytes = encode_instantiation(&instantiation);
            assert_eq!(read_instantiation(&bytes), Err(ATTRIBUTE_IN_TWO_LISTS));
        }
    }
}

#[test]
fn a_refused_file_is_refused_first_of_all() {
    for case in cases().iter().filter(|case| case.answer != 0) {
        let (bytes, refused) = (&case.bytes, case.answer);
        for (node, length) in [(usize::MAX, 0), (0, 70_000)] {
            let applied = apply_with(bytes, node, &[0; 47], [length; 3]);
            assert_eq!(applied, Err(refused), "{}", case.name);
            let recovered = recover_with(bytes, node, &[0; 16], [length; 2]);
            assert_eq!(recovered, Err(refused), "{}", case.name);
        }
    }
}

/// Apply with slices that are long enough: 0 or the refusal.
fn answer_of(inferred: &Inferred, node: usize, instantiation: &Instantiation) -> u8 {
    let work = &mut vec![0; FORMULA_LENGTH * inferred.formulas.len()];
    let (schema, out) = (&mut [0; SCHEMA_LENGTH], &mut [0; OUTPUT_LENGTH]);
    let bytes = encode_instantiation(instantiation);
    inferred.apply(node, &bytes, work, schema, out).number()
}

/// Each subset that is not allowed for each special attribute, and each bit that is no
/// type variable, alone and both together.
#[test]
fn exactly_allowed_subsets_and_type_variables_pass() {
    let mut random = Random::new(83);
    for _ in 0..12 {
        let (_, inferred, node) = typable_node(&mut random);
        let formula = &inferred.formulas[node];
        let relations = inferred.file.relations;
        let instantiation = random.filled_instantiation(formula, relations, 0);
        let answer = |changed: &Instantiation| answer_of(&inferred, node, changed);
        let if_filled = |changed: &Instantiation| {
            let is_empty = changed.image(relations).iter().any(Type::is_empty);
            u8::from(is_empty) * IMAGE_NOT_FILLED
        };
        let variables = type_variables(formula);
        for s in 0..256 {
            let mut with_list = instantiation.clone();
            with_list.insert(s, 20);
            let is_variable = variables.contains(&s);
            let refused = if is_variable {
                0
            } else {
                STANDING_BIT_NO_TYPE_VARIABLE
            };
            assert_eq!(answer(&with_list), refused);
            for attribute in 1..16 {
                let mut changed = instantiation.clone();
                changed.subsets[attribute - 1] = s as u8;
                let is_allowed = is_allowed(formula, attribute, s);
                let wanted = |changed: &Instantiation| match is_allowed {
                    true => if_filled(changed),
                    false => SUBSET_NOT_ALLOWED,
                };
                assert_eq!(answer(&changed), wanted(&changed));
                changed.insert(s, 20);
                let wanted = if is_variable {
                    wanted(&changed)
                } else {
                    refused
                };
                assert_eq!(answer(&changed), wanted);
            }
        }
    }
}

/// The formula of a node of the join of eight relations in which each special attribute
/// and 255 ordinary ones may have any subset.
fn join_formula() -> (Vec<u8>, Formula) {
    let bytes = encode_file(8, &join_of_eight());
    let formula = infer(&bytes).expect("accepted").formulas[14];
    (bytes, formula)
}

/// Every attribute is in the record of each relation of its subset and in no other, rising
/// whatever the lists are.
#[test]
fn attributes_of_many_lists_are_in_the_records_of_their_relations() {
    let mut random = Random::new(84);
    let (bytes, formula) = join_formula();
    for round in 0..100 {
        let ordinary = [255, 254, 17, 1][round % 4];
        let instantiation = random.filled_instantiation(&formula, 8, ordinary);
        let (schema, output) =
            apply_to(&bytes, 14, &encode_instantiation(&instantiation)).expect("applied");
        let image = read_schema(8, &schema).expect("a schema");
        for (&s, list) in &instantiation.lists {
            for (relation, held) in image.iter().enumerate() {
                let is_member = s >> relation & 1 == 1;
                assert!(list
                    .iter()
                    .all(|attribute| held.contains(attribute) == is_member));
            }
        }
        let special = (1..).zip(instantiation.subsets);
        let all: Type = special
            .filter(|&(_, s)| s > 0)
            .map(|(attribute, _)| attribute)
            .chain(instantiation.lists.values().flatten().copied())
            .collect();
        assert_eq!(output, encode_record(&all));
        let held: Type = image.into_iter().flatten().collect();
        assert_eq!(held, all);
    }
}

#[test]
fn applied_then_recovered_is_the_same_and_the_output_is_typings() {
    let mut random = Random::new(85);
    let mut with_lists = 0;
    for _ in 0..4_000 {
        let (bytes, inferred, node) = typable_node(&mut random);
        let ordinary = ordinary_count(&mut random);
        let (formula, relations) = (&inferred.formulas[node], inferred.file.relations);
        let instantiation = random.filled_instantiation(formula, relations, ordinary);
        let instantiation = encode_instantiation(&instantiation);
        let (schema, output) = apply_to(&bytes, node, &instantiation).expect("applied");
        with_lists += u64::from(instantiation.len() > LISTS_START);
        assert_eq!(typing_of(&bytes, node, &schema), Some(output));
        assert_eq!(recover_from(&bytes, node, &schema), Ok(Some(instantiation)));
    }
    println!("{with_lists} with lists");
    assert!(with_lists >= 2_000);
}

/// Images of instantiations, and such with an attribute added, dropped or moved.
#[test]
fn recovered_then_applied_is_the_same_and_untyped_is_typings() {
    let mut random = Random::new(86);
    let (mut typed, mut untyped) = (0, 0);
    for round in 0..6_000 {
        let (bytes, file, sets) = random.file_with_sets_near_an_image(round % 6);
        let node = file.nodes.len() - 1;
        let schema = encode_schema(&sets);
        if sets.iter().any(Type::is_empty) {
            let recovered = recover_from(&bytes, node, &schema);
            assert_eq!(recovered, Err(EMPTY_RECORD));
            continue;
        }
        let recovered = recover_from(&bytes, node, &schema).expect("not refused");
        let by_typing = typing_of(&bytes, node, &schema);
        let by_rules = type_of(&file, node, &sets);
        assert_eq!(by_typing, by_rules.as_ref().map(encode_record));
        assert_eq!(recovered.is_some(), by_typing.is_some());
        match recovered {
            Some(instantiation) => {
                let (image, output) = apply_to(&bytes, node, &instantiation).expect("applied");
                assert_eq!((image, Some(output)), (schema, by_typing));
                typed += 1;
            }
            None => untyped += 1,
        }
    }
    println!("{typed} typed, {untyped} untyped");
    assert!(typed >= 1_000 && untyped >= 1_000);
}

/// Every instantiation of attributes 1, 2 and 16 for the last node of E1 with its image:
/// Apply refuses with 20 or 21 exactly where Typing says untyped of the image. Attribute 4 is in r2.
#[test]
fn every_small_instantiation_of_e1() {
    let (file, mut applied) = (e1().bytes, 0);
    for [first, second, third] in three_subsets(3) {
        let mut instantiation = Instantiation::default();
        instantiation.subsets[..4].copy_from_slice(&[first as u8, second as u8, 3, 4]);
        if third > 0 {
            instantiation.insert(third, 16);
        }
        let subsets = [(1, first), (2, second), (3, 3), (4, 4), (16, third)];
        let schema = encode_schema(&assignment_of(3, subsets));
        let bytes = encode_instantiation(&instantiation);
        match (apply_to(&file, 6, &bytes), typing_of(&file, 6, &schema)) {
            (Ok((image, output)), Some(record)) => {
                assert_eq!((image, output), (schema.clone(), record));
                assert_eq!(recover_from(&file, 6, &schema), Ok(Some(bytes)));
                applied += 1;
            }
            (Err(20 | 21), None) => assert_eq!(recover_from(&file, 6, &schema), Ok(None)),
            (given, record) => panic!("{given:?}, {record:?}"),
        }
    }
    assert_eq!(applied, 2 * 2 * 4);
}

/// Each node's formula is inferred once, so shared operands do not multiply the steps.
#[test]
fn sixty_three_pairs_of_the_node_before_end() {
    let full = encode_schema(&in_each_of_eight(1..271));
    for bytes in pairs_of_the_node_before() {
        let applied = apply_to(&bytes, 63, &[0; 47]);
        assert_eq!(applied, Err(IMAGE_NOT_FILLED));
        let recovered = recover_from(&bytes, 63, &full).expect("not refused");
        let is_product = bytes[7] == 4;
        assert_eq!(recovered.is_none(), is_product);
    }
}
