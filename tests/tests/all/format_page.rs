//! The page `docs/FORMAT.md` against the engine and the crate: the examples of section 10, with
//! their files, queries, texts, columns and verdicts, and the clauses that the refusals' texts
//! name.

use type_formula::{
    accept, formula, parse_query, verdict, Expression, Formula, Refusal, Verdict, LONGEST_FILE,
    SCHEMA_SIZE, WORK_SIZE,
};
use type_formula_tests::examples::{e1, from_hexadecimal};

const FORMAT: &str = include_str!("../../../docs/FORMAT.md");

/// The clauses of section 10, each from its number on.
fn clauses() -> Vec<&'static str> {
    let (_, section) = FORMAT.split_once("\n## 10 ").expect("section 10");
    let section = section.split("\n## ").next().expect("a section");
    section.split("\n- **10.").skip(1).collect()
}

/// What stands between two marks, for each time that the first is there.
fn between<'a>(text: &'a str, start: &'a str, end: &'a [char]) -> impl Iterator<Item = &'a str> {
    let rest = text.split(start).skip(1);
    rest.map(move |rest| rest.split(end).next().expect("a part"))
}

/// The bytes in the code mark after a word, if the clause has it.
fn bytes_after(clause: &str, word: &str) -> Option<Vec<u8>> {
    between(clause, &format!("{word} `"), &['`'])
        .next()
        .map(from_hexadecimal)
}

/// The subsets that a column allows, as the page writes them.
fn column_text(formula: Formula, column: u8) -> String {
    let item = |subset: u8| match formula.outputs(column, subset) {
        true => format!("{subset:02x}+"),
        false => format!("{subset:02x}-"),
    };
    let items: Vec<String> = formula.allowed(column).map(item).collect();
    match items.is_empty() {
        true => "none".to_string(),
        false => items.join(" "),
    }
}

/// Asserts the columns that a clause names; gives how many.
fn assert_columns(clause: &str, formula: Formula) -> usize {
    let mut count = 0;
    for named in between(clause, "olumn ", &['.', ';']) {
        let Some((column, items)) = named.split_once(": ") else {
            continue;
        };
        let column = column.parse().expect("a column");
        assert_eq!(column_text(formula, column), items, "{clause}");
        count += 1;
    }
    for items in between(clause, "Every column: ", &['.']) {
        for column in 0..16 {
            assert_eq!(column_text(formula, column), items, "{clause}");
        }
        count += 16;
    }
    count
}

/// The number after some words, if the clause has them.
fn number_after(clause: &str, words: &str) -> Option<u8> {
    let number = between(clause, words, &['.', ':', ';']).next();
    number.map(|number| number.parse().expect("a number"))
}

/// Asserts the verdict that a clause gives; gives how many there are.
fn assert_verdict(clause: &str, file: &[u8], node: usize) -> usize {
    let (mut work, mut schema) = ([0; WORK_SIZE], [0; SCHEMA_SIZE]);
    let witness = bytes_after(clause, "itness");
    let attribute = number_after(clause, "Untypable, attribute ");
    if witness.is_none() && attribute.is_none() {
        return 0;
    }
    match verdict(file, node, &mut work, &mut schema).expect("a verdict") {
        Verdict::Typable {
            witness: given,
            memberships,
        } => {
            assert_eq!(Some(given.bytes().to_vec()), witness, "{clause}");
            let wanted = number_after(clause, "memberships ");
            assert_eq!(Some(memberships), wanted, "{clause}");
        }
        Verdict::Untypable { attribute: given } => assert_eq!(Some(given), attribute),
    }
    1
}

/// Asserts that the query that a clause names is that of its file; gives how many there are.
fn assert_query(clause: &str, wanted: &[u8]) -> usize {
    let Some(text) = between(clause, "Query: `", &['`']).next() else {
        return 0;
    };
    let mut file = [0; LONGEST_FILE];
    let given = parse_query(wanted[0], text, &mut file);
    assert_eq!(given.map(Expression::bytes), Ok(wanted), "{clause}");
    1
}

#[test]
fn the_examples_of_the_format_are_what_the_engine_gives() {
    let (mut files, mut texts, mut columns, mut verdicts) = (0, 0, 0, 0);
    let mut queries = 0;
    for clause in clauses() {
        let Some(file) = bytes_after(clause, "File:") else {
            continue;
        };
        files += 1;
        let node = usize::from(accept(&file).expect("accepted").node_count()) - 1;
        let mut work = [0; WORK_SIZE];
        let formula = formula(&file, &mut work).expect("accepted").last();
        if let Some((_, text)) = clause.split_once("```\n") {
            let (text, _) = text.split_once("```").expect("an end of the text");
            assert_eq!(formula.to_string(), text);
            texts += 1;
        }
        queries += assert_query(clause, &file);
        columns += assert_columns(clause, formula);
        verdicts += assert_verdict(clause, &file, node);
    }
    println!("{files} files, {queries} queries, {texts} texts, {columns} columns");
    println!("{verdicts} verdicts");
    assert!(files >= 8 && texts >= 2 && columns >= 40 && verdicts >= 8);
    assert!(queries >= 6, "{queries} queries");
}

#[test]
fn the_first_example_of_the_format_is_the_file_e1() {
    let first = clauses()[0];
    assert_eq!(bytes_after(first, "File:"), Some(e1().bytes));
}

/// The clauses that a text names, as `FORMAT 5.1, 6.1`.
fn named_clauses(text: &str) -> impl Iterator<Item = &str> {
    let (_, clauses) = text.split_once("(FORMAT ").expect("clauses");
    clauses.trim_end_matches(')').split(", ")
}

#[test]
fn refusals_have_their_names_in_the_format_and_name_its_clauses() {
    for number in 1..=27 {
        let refusal = Refusal::try_from(number).expect("a refusal");
        let row = format!("\n| {number} | `{refusal:?}` |");
        assert!(FORMAT.contains(&row), "{row}");
        for clause in named_clauses(refusal.text()) {
            assert!(FORMAT.contains(&format!("**{clause}**")), "{refusal}");
        }
    }
}
