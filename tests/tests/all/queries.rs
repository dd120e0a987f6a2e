//! The engine against the reference: queries typed as text, printed, damaged, and all short
//! ones.

use type_formula_tests::alone::parsed;
use type_formula_tests::answer::{Answer, Operation};
use type_formula_tests::engine;
use type_formula_tests::examples::from_hexadecimal;
use type_formula_tests::pseudorandom::Random;
use type_formula_tests::query_examples::{extreme_queries, query_cases, E1_TEXT, EXAMPLES};
use type_formula_tests::random_queries::{Faults, ALPHABET};
use type_formula_tests::reference::{ParseQuery, FILE_LENGTH};
use type_formula_tests::test_run::TestRun;

/// The least number of comparisons of each test.
const IN_CASES: u64 = 1_400;
const IN_PRINTED: u64 = 250_000;
const IN_PREFIXES: u64 = 100_000;
const IN_CHANGES: u64 = 600_000;
const IN_INSERTIONS: u64 = 250_000;
const IN_DISTURBED: u64 = 250_000;
const IN_RANDOM_TEXTS: u64 = 80_000;
const IN_SHORT_TEXTS: u64 = 406_901;
const IN_SEQUENCES: u64 = 960_800;
const IN_BRACKETS: u64 = 140_000;
const IN_NUMBERS: u64 = 36_000;

/// All together reach two million.
const _: () = assert!(
    IN_CASES
        + IN_PRINTED
        + IN_PREFIXES
        + IN_CHANGES
        + IN_INSERTIONS
        + IN_DISTURBED
        + IN_RANDOM_TEXTS
        + IN_SHORT_TEXTS
        + IN_SEQUENCES
        + IN_BRACKETS
        + IN_NUMBERS
        >= 2_000_000
);

/// A run with random bytes in the slice before each call.
fn test_run() -> TestRun {
    TestRun::new(610)
}

/// Texts that are damaged byte by byte: the examples, and others with each letter and sign.
fn short_texts() -> Vec<Vec<u8>> {
    let others = ["r0", "(r0+r1)", "((r0-r2)#(r1*r0))", "D[15]S[10,11]r0"];
    let examples = EXAMPLES.iter().map(|(_, _, text, _)| *text);
    let texts = examples.chain(others);
    texts.map(|text| text.as_bytes().to_vec()).collect()
}

/// Longer texts of the language, with and without faults.
fn longer_texts(random: &mut Random, count: usize) -> Vec<Vec<u8>> {
    let text = |place: usize| {
        let faults = [Faults::None, Faults::OneIn(40)][place % 2];
        let nodes = 10 + random.below(30);
        random.query(8, nodes, faults).text().into_bytes()
    };
    (0..count).map(text).collect()
}

/// Facts of the engine, without the reference.
#[test]
fn examples_have_their_files() {
    for (name, relations, text, file) in EXAMPLES {
        let given = parsed(relations, text.as_bytes());
        assert_eq!(given, Ok(from_hexadecimal(file)), "{name}");
    }
}

/// After a refusal slice and size are as they were; after a result, the slice beyond the file.
#[test]
fn slice_and_size_of_e1() {
    let (text, before) = (E1_TEXT.as_bytes(), [0xaa; FILE_LENGTH]);
    let (mut file, mut size) = (before, 77);
    let answer = engine::parse_query(2, text, &mut file, &mut size);
    assert_eq!((answer, size, file), (7, 77, before));
    let answer = engine::parse_query(3, text, &mut file, &mut size);
    assert_eq!((answer, size), (0, 25));
    assert_eq!(file[25..], before[25..]);
}

#[test]
fn cases_have_their_answers() {
    let mut run = test_run();
    for case in query_cases() {
        let given = parsed(case.relations, &case.text);
        let text = String::from_utf8_lossy(&case.text);
        assert_eq!(given, case.answer, "{}: {text}", case.name);
        run.query_with_every_length(case.relations, &case.text);
    }
    run.assert_given(Operation::ParseQuery, [0, 2, 7, 9, 13, 22, 23, 24], 3);
    run.finish("cases", IN_CASES);
}

/// The answer and the length by the engine, by the reference, and by the tree that is printed.
#[test]
fn printed_queries_are_read_back() {
    let mut random = Random::new(611);
    let mut run = test_run();
    for _ in 0..IN_PRINTED {
        let relations = random.between(1, 8);
        let query = random.any_query(relations);
        let text = query.text();
        let length = run.random().enough(FILE_LENGTH);
        let given = run.parse_query(relations, text.as_bytes(), length);
        let wanted = query.answer(relations);
        match given {
            ParseQuery::Parsed { length } => {
                assert_eq!(Ok(length), wanted.map(|file| file.len()), "{text}");
            }
            ParseQuery::Refused { number } => assert_eq!(Err(number), wanted, "{text}"),
        }
    }
    run.assert_given(Operation::ParseQuery, [0, 7, 9, 23, 24], 500);
    run.finish("printed queries", IN_PRINTED);
}

/// The bytes that the engine writes, without the reference.
#[test]
fn files_of_printed_queries_are_those_of_the_tree() {
    let mut random = Random::new(612);
    for _ in 0..30_000 {
        let (relations, nodes) = (random.between(1, 8), 1 + random.below(64));
        let query = random.query(relations, nodes, Faults::None);
        let (text, wanted) = (query.text(), query.answer(relations));
        assert_eq!(parsed(relations, text.as_bytes()), wanted, "{text}");
    }
}

/// The bytes beyond the prefix are those of the query, so an engine that read past the length
/// given to it would not refuse.
#[test]
fn every_prefix_of_queries() {
    let mut random = Random::new(613);
    let mut run = test_run();
    let mut texts = [short_texts(), longer_texts(&mut random, 1_000)].concat();
    let extreme = extreme_queries().into_iter();
    texts.extend(extreme.map(|query| query.text().into_bytes()));
    for text in texts {
        for length in 0..text.len() {
            let answer = run.query(8, &text[..length]);
            assert_eq!(answer, if length <= 512 { 22 } else { 23 });
        }
        run.query(8, &text);
    }
    run.finish("prefixes", IN_PREFIXES);
}

/// Every value of each byte of short texts; of longer ones those of the language and a few.
#[test]
fn every_change_of_one_byte() {
    let mut random = Random::new(614);
    let mut run = test_run();
    let few: Vec<u8> = ALPHABET.iter().copied().chain([0, 32, 91, 255]).collect();
    let all: Vec<u8> = (0..=255).collect();
    let short = short_texts().into_iter().map(|text| (text, &all));
    let longer = longer_texts(&mut random, 100)
        .into_iter()
        .map(|text| (text, &few));
    for (text, values) in short.chain(longer) {
        for place in 0..text.len() {
            let mut changed = text.clone();
            for &value in values {
                changed[place] = value;
                run.query(3, &changed);
                run.query(8, &changed);
            }
        }
    }
    run.assert_given(Operation::ParseQuery, [0, 7, 9, 22], 1_000);
    run.finish("changes of one byte", IN_CHANGES);
}

/// Every byte at every place of short texts, of longer ones those of the language; and each
/// byte left out, and each two.
#[test]
fn every_insertion_and_deletion() {
    let mut random = Random::new(615);
    let mut run = test_run();
    let all: Vec<u8> = (0..=255).collect();
    let short = short_texts().into_iter().map(|text| (text, &all[..]));
    let longer = longer_texts(&mut random, 80)
        .into_iter()
        .map(|text| (text, &ALPHABET[..]));
    for (text, values) in short.chain(longer) {
        for place in 0..=text.len() {
            let mut longer = text.clone();
            longer.insert(place, 0);
            for &value in values {
                longer[place] = value;
                run.query(8, &longer);
            }
            for end in place + 1..=(place + 3).min(text.len()) {
                let mut shorter = text.clone();
                shorter.drain(place..end);
                run.query(8, &shorter);
            }
        }
    }
    run.assert_given(Operation::ParseQuery, [0, 7, 9, 22], 100);
    run.finish("insertions and deletions", IN_INSERTIONS);
}

#[test]
fn disturbed_queries() {
    let mut random = Random::new(616);
    let mut run = test_run();
    for _ in 0..IN_DISTURBED {
        let relations = random.between(1, 8);
        let mut text = random.any_query(relations).text().into_bytes();
        for _ in 0..random.between(1, 3) {
            random.disturb_text(&mut text);
        }
        let length = run.random().near(FILE_LENGTH);
        run.parse_query(relations, &text, length);
    }
    run.assert_given(Operation::ParseQuery, [0, 7, 9, 13, 22, 23, 24], 100);
    run.finish("disturbed queries", IN_DISTURBED);
}

#[test]
fn random_texts_of_lengths_0_to_600() {
    let mut random = Random::new(617);
    let mut run = test_run();
    for length in (0..=600).flat_map(|length| [length; 70]) {
        run.query(random.byte(), &random.bytes(length));
        run.query(8, &random.text_bytes(length));
    }
    run.assert_given(Operation::ParseQuery, [2, 22, 23], 1_000);
    run.finish("random texts", IN_RANDOM_TEXTS);
}

/// Hands on the text of every sequence of up to so many of these pieces.
fn every_sequence(pieces: &[&str], most: usize, mut take: impl FnMut(&[u8])) {
    for count in 0..=most {
        let sequences = pieces.len().pow(count as u32);
        let mut text = Vec::new();
        for sequence in 0..sequences {
            text.clear();
            let mut rest = sequence;
            for _ in 0..count {
                text.extend_from_slice(pieces[rest % pieces.len()].as_bytes());
                rest /= pieces.len();
            }
            take(&text);
        }
    }
}

/// All texts of at most four bytes that queries are written with. The relations alone are
/// queries.
#[test]
fn every_text_of_up_to_4_bytes() {
    let mut run = test_run();
    let letters: Vec<String> = ALPHABET.iter().map(|&b| (b as char).to_string()).collect();
    let letters: Vec<&str> = letters.iter().map(String::as_str).collect();
    every_sequence(&letters, 4, |text| {
        run.query(6, text);
    });
    let of = |answer| run.counts.of(Operation::ParseQuery, answer);
    assert_eq!((of(0), of(7)), (6, 4));
    assert_eq!(of(22), run.counts.made() - 10);
    run.finish("texts of up to 4 bytes", IN_SHORT_TEXTS);
}

/// Symbols of the language, of which one has a wrong relation for m 2, and one a wrong
/// attribute.
const SYMBOLS: [&str; 7] = ["r0", "r2", "(", ")", "+", "P[]", "D[0]"];

/// How many sequences of each number of these symbols are operands, counted by the grammar: two
/// relations, two prefixes, and one pair.
fn operands(most: usize) -> Vec<u64> {
    let mut counts: Vec<u64> = vec![0, 2];
    for length in 2..=most {
        let prefixes = 2 * counts[length - 1];
        let of_operands = length.saturating_sub(3);
        let pairs: u64 = (0..=of_operands)
            .map(|left| counts[left] * counts[of_operands - left])
            .sum();
        counts.push(prefixes + pairs);
    }
    counts
}

/// As many sequences are in the language as the grammar has.
#[test]
fn every_sequence_of_up_to_7_symbols() {
    let mut run = test_run();
    every_sequence(&SYMBOLS, 7, |text| {
        run.query(2, text);
    });
    let of = |answer| run.counts.of(Operation::ParseQuery, answer);
    let in_language: u64 = operands(7).iter().sum();
    assert_eq!(of(0) + of(7) + of(9), in_language);
    assert_eq!(of(22), run.counts.made() - in_language);
    run.assert_given(Operation::ParseQuery, [0, 7, 9], 15);
    run.finish("sequences of up to 7 symbols", IN_SEQUENCES);
}

/// Everything that short texts can put between the brackets of each letter. There are 16
/// numbers of these digits; with 5 bytes there are 141 rising lists of them (the empty one, 16
/// of one, 120 of two, 4 of three) and 256 pairs.
#[test]
fn every_text_of_up_to_5_bytes_in_brackets() {
    let mut run = test_run();
    let pieces = ["0", "1", "2", "9", ",", ">", "]", "r"];
    every_sequence(&pieces, 5, |inner| {
        for letter in ["S[", "P[", "N[", "D["] {
            let text = [letter.as_bytes(), inner, b"]r0"].concat();
            run.query(1, &text);
        }
    });
    let of = |answer| run.counts.of(Operation::ParseQuery, answer);
    assert_eq!(of(0) + of(9), 2 * 141 + 256 + 16);
    assert_eq!(of(22), run.counts.made() - of(0) - of(9));
    run.assert_given(Operation::ParseQuery, [0, 9], 50);
    run.finish("texts in brackets", IN_BRACKETS);
}

/// Every pair of numbers up to 109, as a list and in a renaming, with its answer by the rules.
#[test]
fn every_number_and_every_pair_of_numbers() {
    let mut run = test_run();
    let is_special = |number: u32| (1..=15).contains(&number);
    let answer = |is_written: bool, numbers: &[u32]| match numbers {
        _ if !is_written => 22,
        numbers if numbers.iter().any(|&number| number > 99) => 22,
        numbers if numbers.iter().all(|&number| is_special(number)) => 0,
        _ => 9,
    };
    for first in 0..110 {
        let text = format!("D[{first}]r0");
        let given = run.query(1, text.as_bytes());
        assert_eq!(given, answer(true, &[first]), "{text}");
        for second in 0..110 {
            let both = [first, second];
            for (text, is_written) in [
                (format!("S[{first},{second}]r0"), first < second),
                (format!("P[{first},{second}]r0"), first < second),
                (format!("N[{first}>{second}]r0"), true),
            ] {
                let given = run.query(1, text.as_bytes());
                assert_eq!(given, answer(is_written, &both), "{text}");
            }
        }
    }
    run.finish("numbers", IN_NUMBERS);
}

/// Each digit after `r` with each number of relations.
#[test]
fn every_relation_with_every_number_of_relations() {
    let mut run = test_run();
    for relations in 0..=255 {
        for digit in 0..10 {
            let text = format!("r{digit}");
            let length = run.random().enough(FILE_LENGTH);
            let answer = run.parse_query(relations, text.as_bytes(), length);
            let wanted = match relations {
                1..=8 if digit < relations => 0,
                1..=8 => 7,
                _ => 2,
            };
            assert_eq!(answer.number(), wanted, "{text} of {relations}");
        }
    }
    run.finish("relations", 2_560);
}
