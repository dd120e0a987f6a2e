//! The engine against the reference: queries with several errors at once, and at the limits of
//! length, depth and number of nodes.

use std::thread;

use type_formula_tests::alone::parsed;
use type_formula_tests::answer::{Answer, Operation};
use type_formula_tests::pseudorandom::Random;
use type_formula_tests::query_examples::{
    extreme_queries, extreme_texts, nested, nested_pairs, of_length, E1_TEXT,
};
use type_formula_tests::query_trees::{relation, Query};
use type_formula_tests::random_queries::Faults;
use type_formula_tests::reference::{FILE_LENGTH, LONGEST_TEXT};
use type_formula_tests::test_run::TestRun;

/// A run with random bytes in the slice before each call.
fn test_run() -> TestRun {
    TestRun::new(620)
}

/// The refusals that a text or its slice can give, in the order of their tests; of 7 and 9 the
/// leftmost comes first.
const REFUSALS: [u8; 7] = [2, 13, 23, 22, 24, 7, 9];

/// The queries of a pair that have just these faults of 7 and 9, and which of them is the
/// leftmost.
fn faulty_pairs(has_7: bool, has_9: bool) -> Vec<(Query, Option<u8>)> {
    let (wrong_relation, wrong_attribute) = (relation(9), relation(0).projecting_out(16));
    match (has_7, has_9) {
        (false, false) => vec![(relation(0).pair('*', relation(0)), None)],
        (true, false) => vec![
            (wrong_relation.clone().pair('*', relation(0)), Some(7)),
            (relation(0).pair('*', wrong_relation), Some(7)),
        ],
        (false, true) => vec![
            (wrong_attribute.clone().pair('*', relation(0)), Some(9)),
            (relation(0).pair('*', wrong_attribute), Some(9)),
        ],
        (true, true) => vec![
            (
                wrong_relation.clone().pair('*', wrong_attribute.clone()),
                Some(7),
            ),
            (wrong_attribute.pair('*', wrong_relation.clone()), Some(9)),
            (wrong_relation.with_set('S', [0, 1]), Some(9)),
        ],
    }
}

/// The query with prefixes before it, so that it has over 64 nodes or over 512 bytes.
fn made_longer(mut query: Query, has_24: bool, has_23: bool) -> Query {
    if has_24 {
        while query.node_count() < 65 {
            query = query.with_set('P', []);
        }
    }
    if has_23 {
        while query.text().len() <= LONGEST_TEXT {
            query = query.with_set('S', 1..=15);
        }
    }
    query
}

/// The text as it is; or such that it is not in the language.
fn spoiled(text: &str, has_22: bool) -> Vec<String> {
    if !has_22 {
        return vec![text.to_string()];
    }
    vec![
        format!("{text})"),
        format!("{text}\0"),
        format!("({text}"),
        format!("{text}+r0"),
        text.replacen("r0", "r00", 1) + " ",
        text.replacen("*", "**", 1) + "]",
    ]
}

/// All combinations of the seven errors: the answer is the first in the order of the tests.
#[test]
fn all_combinations_of_errors() {
    let mut run = test_run();
    for combination in 0..1 << REFUSALS.len() {
        let has = |refusal| {
            let place = REFUSALS.iter().position(|&each| each == refusal);
            combination >> place.expect("a refusal") & 1 == 1
        };
        for (query, leftmost) in faulty_pairs(has(7), has(9)) {
            let query = made_longer(query, has(24), has(23));
            assert_eq!(query.node_count() > 64, has(24));
            for text in spoiled(&query.text(), has(22)) {
                assert_eq!(text.len() > LONGEST_TEXT, has(23));
                let first = REFUSALS[..5].iter().copied().find(|&refusal| has(refusal));
                let wanted = first.or(leftmost).unwrap_or(0);
                let counts: &[u8] = if has(2) { &[0, 9, 255] } else { &[1, 3, 8] };
                let lengths: &[usize] = match has(13) {
                    true => &[0, 1, FILE_LENGTH - 1],
                    false => &[FILE_LENGTH, FILE_LENGTH + 1, 1_000],
                };
                for &relations in counts {
                    for &length in lengths {
                        let given = run.parse_query(relations, text.as_bytes(), length);
                        assert_eq!(given.number(), wanted, "{text}");
                    }
                }
            }
        }
    }
    run.assert_given(Operation::ParseQuery, [0, 2, 7, 9, 13, 22, 23, 24], 9);
    run.finish("combinations of errors", 6_000);
}

/// Texts with `?` in the place of numbers.
const WITH_PLACES: [&str; 6] = [
    "(D[?]r?+(r?-N[?>?]r?))",
    "S[?](P[?]r?#r?)",
    "((r?+r?)*(r?+D[?]r?))",
    "N[?>?]D[?]S[?]P[?]r?",
    "(r?+(r?+(D[?]r?+(r?+r?))))",
    "((((r?-S[?]r?)-r?)-D[?]r?)-r?)",
];

/// A number for a place, right or wrong for m 5, and its refusal.
fn number(random: &mut Random, is_relation: bool, is_wrong: bool) -> (u8, u8) {
    match (is_relation, is_wrong) {
        (true, false) => (random.between(0, 4), 0),
        (true, true) => (random.between(5, 9), 7),
        (false, false) => (random.between(1, 15), 0),
        (false, true) => ([0, 16, 25, 99][random.below(4)], 9),
    }
}

/// The text with a number at each place, wrong where the bit of the place stands, and the
/// refusal of the leftmost wrong one.
fn with_numbers(random: &mut Random, text: &str, wrong: u32) -> (String, u8) {
    let mut parts = text.split('?');
    let mut filled = parts.next().unwrap_or("").to_string();
    let mut leftmost = 0;
    for (place, part) in parts.enumerate() {
        let is_wrong = wrong >> place & 1 == 1;
        let (number, refusal) = number(random, filled.ends_with('r'), is_wrong);
        filled += &format!("{number}{part}");
        if leftmost == 0 {
            leftmost = refusal;
        }
    }
    (filled, leftmost)
}

/// Every choice of right and wrong numbers at all places, ten times.
#[test]
fn faults_at_every_choice_of_places() {
    let mut random = Random::new(621);
    let mut run = test_run();
    for text in WITH_PLACES {
        let choices = 0..1 << text.matches('?').count();
        for wrong in choices.flat_map(|choice| [choice; 10]) {
            let (filled, wanted) = with_numbers(&mut random, text, wrong);
            assert_eq!(run.query(5, filled.as_bytes()), wanted, "{filled}");
        }
    }
    run.assert_given(Operation::ParseQuery, [7, 9], 1_000);
    run.finish("faults at places", 3_600);
}

/// Two faults anywhere in larger queries, by the tree.
#[test]
fn two_faults_in_random_queries() {
    let mut random = Random::new(622);
    let mut run = test_run();
    for _ in 0..40_000 {
        let (relations, nodes) = (random.between(1, 8), 1 + random.below(40));
        let query = random.query(relations, nodes, Faults::OneIn(12));
        let wanted = query.answer(relations).err().unwrap_or(0);
        let text = query.text();
        assert_eq!(run.query(relations, text.as_bytes()), wanted, "{text}");
    }
    run.assert_given(Operation::ParseQuery, [0, 7, 9], 2_000);
    run.finish("faults in random queries", 40_000);
}

/// Every number of relations and every length of the slice around the least, for texts with
/// each answer.
#[test]
fn every_number_of_relations_and_length_of_the_slice() {
    let mut run = test_run();
    let texts = [
        E1_TEXT.to_string(),
        "r7".to_string(),
        "S[0]r0".to_string(),
        "(r0+".to_string(),
        String::new(),
        nested(64).text(),
        "r".repeat(LONGEST_TEXT + 1),
    ];
    for relations in 0..=255 {
        for text in &texts {
            run.query_with_every_length(relations, text.as_bytes());
        }
    }
    for length in 0..=2 * FILE_LENGTH {
        for text in &texts {
            let given = run.parse_query(8, text.as_bytes(), length).number();
            assert_eq!(given == 13, length < FILE_LENGTH, "{length}");
        }
    }
    run.assert_given(Operation::ParseQuery, [0, 2, 9, 13, 22, 23, 24], 100);
    run.finish("relations and slices", 15_000);
}

/// Queries of every length up to 520 bytes that have 64 nodes: over 512 bytes 23, else a
/// result. With a byte more or less they are no queries.
#[test]
fn queries_of_every_length_up_to_520_bytes() {
    let mut run = test_run();
    for length in 191..=520 {
        let text = of_length(length).text();
        assert_eq!(text.len(), length);
        let wanted = |length| if length > LONGEST_TEXT { 23 } else { 22 };
        let of_query = if length > LONGEST_TEXT { 23 } else { 0 };
        assert_eq!(run.query(1, text.as_bytes()), of_query, "{length}");
        assert_eq!(
            run.query(1, &text.as_bytes()[..length - 1]),
            wanted(length - 1)
        );
        let longer = text + ")";
        assert_eq!(run.query(1, longer.as_bytes()), wanted(length + 1));
    }
    run.finish("queries by length", 990);
}

/// Texts that are longer than they may be, up to far beyond, whatever they are.
#[test]
fn longer_texts_are_23() {
    let mut random = Random::new(623);
    let mut run = test_run();
    for length in [
        513, 514, 600, 767, 768, 1_024, 65_535, 65_536, 66_048, 70_000,
    ] {
        for fill in [b"r0".to_vec(), b"P[]".to_vec(), random.text_bytes(64)] {
            let text: Vec<u8> = fill.into_iter().cycle().take(length).collect();
            assert_eq!(run.query(8, &text), 23);
            assert_eq!(run.query(9, &text), 2);
            assert_eq!(run.parse_query(8, &text, 321).number(), 13);
        }
    }
    for text in extreme_texts() {
        let wanted = if text.len() > LONGEST_TEXT { 23 } else { 22 };
        assert_eq!(run.query(8, &text), wanted);
    }
    run.finish("longer texts", 120);
}

/// As deep as 512 bytes let prefixes, pairs on either side, and open pairs be; each with every
/// number of them.
#[test]
fn queries_of_every_depth() {
    let mut run = test_run();
    for count in 0..=260 {
        for query in [
            nested(count),
            nested_pairs(count, true),
            nested_pairs(count, false),
        ] {
            let text = query.text();
            let wanted = query.answer(1).err().unwrap_or(0);
            assert_eq!(run.query(1, text.as_bytes()), wanted, "{text}");
            assert_ne!(run.query(1, &text.as_bytes()[1..]), 0, "{text}");
        }
        let mixed = (0..count).fold(relation(0), |query, place| match place % 3 {
            0 => query.pair('-', relation(0)),
            1 => query.projecting_out(1),
            _ => relation(0).pair('#', query),
        });
        let wanted = mixed.answer(1).err().unwrap_or(0);
        assert_eq!(run.query(1, mixed.text().as_bytes()), wanted);
        for open in ["(", "((r0+r0)+", "S[]", "D[1]("] {
            run.query(1, (open.repeat(count) + "r0").as_bytes());
            run.query(1, open.repeat(count).as_bytes());
        }
    }
    run.assert_given(Operation::ParseQuery, [0, 22, 23, 24], 100);
    run.finish("queries by depth", 3_000);
}

/// The stack that the header names is enough for the text that takes the most; the rest is for the
/// thread itself.
#[test]
fn the_deepest_text_needs_no_more_stack_than_the_header_says() {
    let answer = || parsed(1, &[b'('; LONGEST_TEXT]);
    let thread = thread::Builder::new().stack_size(160_000 + 16_384);
    let given = thread.spawn(answer).expect("a thread").join();
    assert_eq!(given.expect("it ends"), Err(22));
}

/// Random queries of 60 to 70 nodes: up to 64 a result, then 24, unless they are too long.
#[test]
fn queries_of_about_64_nodes() {
    let mut random = Random::new(624);
    let mut run = test_run();
    for _ in 0..3_000 {
        for nodes in 60..=70 {
            let query = random.query(8, nodes, Faults::None);
            let text = query.text();
            let wanted = match nodes {
                _ if text.len() > LONGEST_TEXT => 23,
                0..=64 => 0,
                _ => 24,
            };
            assert_eq!(run.query(8, text.as_bytes()), wanted, "{text}");
        }
    }
    run.assert_given(Operation::ParseQuery, [0, 24], 10_000);
    run.finish("queries of about 64 nodes", 33_000);
}

/// The extreme queries with each of their bytes changed to those that open, close or end.
#[test]
fn extreme_queries_with_one_byte_changed() {
    let mut run = test_run();
    for query in extreme_queries() {
        let text = query.text().into_bytes();
        for place in 0..text.len() {
            for value in [b'(', b')', b'r', b'9', b'[', b']', b'S', b'+', 0] {
                let mut changed = text.clone();
                changed[place] = value;
                run.query(1, &changed);
            }
        }
    }
    run.assert_given(Operation::ParseQuery, [0, 7, 22, 23, 24], 30);
    run.finish("extreme queries", 60_000);
}
