//! The program `list_query` against the reference: the text of the query's last node, or the
//! refusal, and how it is used. Needs the program.

use std::ffi::OsStr;
use std::os::unix::ffi::OsStrExt;

use type_formula_tests::formula_examples::{formula_examples, E1_LISTING};
use type_formula_tests::programs;
use type_formula_tests::pseudorandom::Random;
use type_formula_tests::query_examples::{extreme_queries, query_cases, E1_TEXT, EXAMPLES};
use type_formula_tests::reference::listing;
use type_formula_tests::reference_calls::parse;

const USAGE: &str = "usage: list_query RELATIONS TEXT\n";

/// What the program prints for these arguments.
fn printed(arguments: &[&[u8]]) -> String {
    let arguments: Vec<&OsStr> = arguments
        .iter()
        .map(|each| OsStr::from_bytes(each))
        .collect();
    let given = programs::run_with("list_query", &arguments);
    String::from_utf8(given).expect("text")
}

/// Compares what the program prints with the reference's text, which it gives.
fn compare(relations: u8, text: &[u8]) -> String {
    let wanted = match parse(relations, text) {
        Ok(file) => listing(&file),
        Err(refusal) => format!("refused {refusal}\n"),
    };
    let given = printed(&[relations.to_string().as_bytes(), text]);
    let shown = String::from_utf8_lossy(text);
    assert_eq!(given, wanted, "{shown} of {relations}");
    wanted
}

/// The text as document 01 has it.
#[test]
fn e1_has_this_text() {
    assert_eq!(compare(3, E1_TEXT.as_bytes()), E1_LISTING);
}

#[test]
fn examples_have_their_texts() {
    for (name, relations, text, _) in EXAMPLES {
        let examples = formula_examples();
        let example = examples.iter().find(|example| example.name == name);
        let listing = example.expect("an example").listing;
        assert_eq!(compare(relations, text.as_bytes()), listing, "{name}");
    }
}

/// Each refusal but 13, and files; an argument cannot have the byte 0.
#[test]
fn cases_have_their_answers() {
    let mut answers = [0; 25];
    for case in query_cases() {
        if case.text.contains(&0) {
            continue;
        }
        let text = compare(case.relations, &case.text);
        if let Err(refusal) = case.answer {
            assert_eq!(text, format!("refused {refusal}\n"), "{}", case.name);
        }
        answers[usize::from(case.answer.err().unwrap_or(0))] += 1;
    }
    assert!([0, 2, 7, 9, 22, 23, 24]
        .iter()
        .all(|&answer| answers[answer] > 0));
}

#[test]
fn extreme_queries_have_their_texts() {
    for query in extreme_queries() {
        compare(1, query.text().as_bytes());
    }
}

#[test]
fn random_and_disturbed_queries() {
    let mut random = Random::new(640);
    let (mut queries, mut refused) = (0, 0);
    for round in 0..120 {
        let relations = random.between(1, 8);
        let mut text = random.any_query(relations).text().into_bytes();
        if round % 3 == 0 {
            random.disturb_text(&mut text);
            text.retain(|&byte| byte != 0);
        }
        match compare(relations, &text).starts_with("refused ") {
            true => refused += 1,
            false => queries += 1,
        }
    }
    println!("{queries} queries, {refused} refused");
    assert!(queries >= 50 && refused >= 20);
}

#[test]
fn texts_that_are_longer_than_any_query() {
    for length in [513, 514, 1_000, 65_536, 100_000] {
        assert_eq!(compare(1, &b"r0".repeat(length)[..length]), "refused 23\n");
        assert_eq!(compare(9, &b"r0".repeat(length)[..length]), "refused 2\n");
    }
}

/// Every number of relations that is one byte.
#[test]
fn every_number_of_relations() {
    for relations in 0..=255 {
        let text = compare(relations, b"(r0*r1)");
        let wanted = match relations {
            1 => "refused 7\n",
            2..=8 => "node 2 typable\n",
            _ => "refused 2\n",
        };
        assert!(text.starts_with(wanted), "{relations}: {text}");
    }
}

#[test]
fn it_says_how_it_is_used() {
    for relations in [
        "",
        " ",
        "x",
        "-1",
        "+1",
        "1.",
        " 1",
        "1 ",
        "1x",
        "x1",
        "0x1",
        "256",
        "260",
        "300",
        "999",
        "1000",
        "2560",
        "0000001",
        "18446744073709551617",
        "r0",
    ] {
        assert_eq!(
            printed(&[relations.as_bytes(), b"r0"]),
            USAGE,
            "{relations}"
        );
    }
    for arguments in [
        &[][..],
        &[&b"3"[..]],
        &[b"r0"],
        &[b"3", b"r0", b"r1"],
        &[b"3", b"r0", b"r1", b"r2"],
    ] {
        assert_eq!(printed(arguments), USAGE, "{} arguments", arguments.len());
    }
}
