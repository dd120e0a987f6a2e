//! Queries typed as text by the crate `type_formula`: what is parsed is accepted, and is the
//! expression that the builder builds and the formula that it then has.

use type_formula::{
    accept, formula, parse_query, verdict, Expression, ExpressionBuilder, Refusal, Verdict,
    LONGEST_FILE, SCHEMA_SIZE, WORK_SIZE,
};
use type_formula_tests::formula_examples::formula_examples;
use type_formula_tests::pseudorandom::Random;
use type_formula_tests::query_examples::{extreme_queries, query_cases, EXAMPLES};
use type_formula_tests::query_trees::Query;
use type_formula_tests::random_queries::Faults;
use type_formula_tests::reference::listing;

/// Adds the nodes of a query, operands first, and gives the number of the last.
fn build(builder: &mut ExpressionBuilder, query: &Query) -> Result<u8, Refusal> {
    match query {
        Query::Relation { relation } => builder.relation(*relation),
        Query::Pair { sign, left, right } => {
            let (left, right) = (build(builder, left)?, build(builder, right)?);
            match sign {
                '+' => builder.union(left, right),
                '-' => builder.difference(left, right),
                '*' => builder.join(left, right),
                _ => builder.product(left, right),
            }
        }
        Query::WithSet {
            letter,
            list,
            operand,
        } => {
            let (operand, attributes) = (build(builder, operand)?, list.iter().copied());
            match letter {
                'S' => builder.selection(operand, attributes),
                _ => builder.projection(operand, attributes),
            }
        }
        Query::Renaming { old, new, operand } => {
            let operand = build(builder, operand)?;
            builder.renaming(operand, *old, *new)
        }
        Query::ProjectingOut { old, operand } => {
            let operand = build(builder, operand)?;
            builder.projecting_out(operand, *old)
        }
    }
}

/// The text of the last node's formula.
fn formula_text(expression: Expression) -> String {
    let mut work = vec![0; WORK_SIZE];
    let formulas = formula(expression.bytes(), &mut work).expect("accepted");
    formulas.last().to_string()
}

/// Whether some schema types the last node.
fn is_typable(expression: Expression) -> bool {
    let (mut work, mut schema) = (vec![0; WORK_SIZE], [0; SCHEMA_SIZE]);
    let last = usize::from(expression.node_count()) - 1;
    let given = verdict(expression.bytes(), last, &mut work, &mut schema);
    matches!(given, Ok(Verdict::Typable { .. }))
}

/// Compares a query as text with the same one built; gives whether it is typable, if there are
/// not too many nodes or bytes.
fn compare(relations: u8, query: &Query) -> Option<bool> {
    let text = query.text();
    let mut file = [0; LONGEST_FILE];
    let parsed = match parse_query(relations, &text, &mut file) {
        Ok(parsed) => parsed,
        Err(refusal) => {
            assert_eq!(query.answer(relations), Err(refusal.number()), "{text}");
            return None;
        }
    };
    let accepted = accept(parsed.bytes()).expect("accepted");
    assert_eq!(accepted.relation_count(), relations);
    assert_eq!(usize::from(accepted.node_count()), query.node_count());
    let mut builder = ExpressionBuilder::new(relations).expect("a count");
    let last = build(&mut builder, query).expect("a node");
    assert_eq!(last, parsed.node_count() - 1);
    let built = builder.expression().expect("accepted");
    assert_eq!(built, parsed, "{text}");
    assert_eq!(formula_text(built), formula_text(parsed), "{text}");
    assert_eq!(formula_text(parsed), listing(parsed.bytes()), "{text}");
    Some(is_typable(parsed))
}

#[test]
fn parsed_queries_are_those_that_are_built() {
    let mut random = Random::new(630);
    let (mut typable, mut untypable) = (0, 0);
    for _ in 0..1_500 {
        let (relations, nodes) = (random.between(1, 8), 1 + random.below(12));
        let query = random.query(relations, nodes, Faults::None);
        match compare(relations, &query) {
            Some(true) => typable += 1,
            Some(false) => untypable += 1,
            None => {}
        }
    }
    println!("{typable} typable, {untypable} untypable");
    assert!(typable >= 300 && untypable >= 300);
}

/// Queries of 64 nodes and of 512 bytes among them, and such that are refused.
#[test]
fn extreme_queries_are_those_that_are_built() {
    let queries = extreme_queries();
    let parsed = queries.iter().filter_map(|query| compare(1, query));
    assert!(parsed.count() >= 5);
}

/// What is typed has the text that document 01 gives for it.
#[test]
fn examples_have_their_listings() {
    for (name, relations, text, _) in EXAMPLES {
        let examples = formula_examples();
        let example = examples.iter().find(|example| example.name == name);
        let listing = example.expect("an example").listing;
        let mut file = [0; LONGEST_FILE];
        let query = parse_query(relations, text, &mut file).expect("a query");
        assert_eq!(formula_text(query), listing, "{name}");
    }
}

/// Every file that parsing gives is accepted, with the relations asked for.
#[test]
fn every_parsed_file_is_accepted() {
    let mut random = Random::new(631);
    let mut count = 0;
    let cases = query_cases().into_iter();
    let cases = cases.map(|case| (case.relations, case.text));
    let random_texts = (0..50_000).map(|round| {
        let relations = random.between(1, 8);
        let mut text = random.any_query(relations).text().into_bytes();
        if round % 2 == 0 {
            random.disturb_text(&mut text);
        }
        (relations, text)
    });
    for (relations, text) in cases.chain(random_texts) {
        let mut file = [0x55; LONGEST_FILE];
        if let Ok(parsed) = parse_query(relations, &text, &mut file) {
            let accepted = accept(parsed.bytes());
            assert_eq!(accepted, Ok(parsed));
            assert_eq!(parsed.relation_count(), relations);
            count += 1;
        }
    }
    println!("{count} files");
    assert!(count >= 20_000);
}
