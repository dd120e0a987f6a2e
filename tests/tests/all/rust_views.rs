//! The views and builders of the crate `type_formula` against the reference: texts, parts and
//! refusals.

use type_formula::{
    accept, formula, BinaryOp, ExpressionBuilder, Instantiation, InstantiationBuilder, Node,
    Schema, SchemaBuilder, SetOp, TypeRecord,
};
use type_formula_tests::examples::to_hexadecimal;
use type_formula_tests::formula_examples::formula_examples;
use type_formula_tests::pseudorandom::Random;
use type_formula_tests::reference::{
    self, allowed_subsets, encode_instantiation, encode_record, encode_schema, infer, is_output,
    listing, read_instantiation, read_schema, type_variables, untypable_attribute, Type, COLUMNS,
    FORMULA_LENGTH, STANDING_BIT_NO_TYPE_VARIABLE,
};

/// Compares the views of a file's formulas with the reference's formulas, and the text of the last
/// node with the listing.
fn compare_formulas(file: &[u8]) {
    let relations = file[0];
    let mut work = vec![0; 64 * FORMULA_LENGTH];
    let given = formula(file, &mut work).expect("accepted");
    assert_eq!(given.last().to_string(), listing(file));
    let wanted = infer(file).expect("accepted").formulas;
    for (number, wanted) in wanted.iter().enumerate() {
        let given = given.node(number).expect("a node");
        assert_eq!(given.number(), number);
        let attribute = untypable_attribute(wanted, relations);
        assert_eq!(given.untypable_attribute(), attribute);
        let variables = given.type_variables().map(usize::from);
        assert!(variables.eq(type_variables(wanted)));
        for column in 0..COLUMNS {
            let allowed: Vec<u8> = given.allowed(column as u8).collect();
            let subsets = allowed.iter().map(|&subset| usize::from(subset));
            assert!(subsets.eq(allowed_subsets(wanted, column)));
            let outputs = |&subset: &u8| {
                let wanted = is_output(wanted, column, usize::from(subset));
                given.outputs(column as u8, subset) == wanted
            };
            assert!(allowed.iter().all(outputs), "{}", to_hexadecimal(file));
        }
    }
    assert_eq!(given.node(wanted.len()), None);
    assert_eq!(given.last().allowed(COLUMNS as u8).count(), 0);
}

#[test]
fn formulas_have_the_text_of_the_listing() {
    for example in formula_examples() {
        compare_formulas(&example.bytes());
    }
    let mut random = Random::new(310);
    for round in 0..200 {
        let (relations, count) = (random.between(1, 8), random.between(1, 12));
        compare_formulas(&match round % 2 {
            0 => random.accepted_file(relations, count),
            _ => random.mild_file(relations, count),
        });
    }
}

/// The node of the crate with these fields.
fn node_of_crate(node: reference::Node) -> Node {
    let binary = |op, left, right| Node::Binary { op, left, right };
    let with_set = |op, operand, set| Node::WithSet { op, operand, set };
    match node {
        reference::Node::Relation { relation } => Node::Relation { relation },
        reference::Node::Union { left, right } => binary(BinaryOp::Union, left, right),
        reference::Node::Difference { left, right } => binary(BinaryOp::Difference, left, right),
        reference::Node::NaturalJoin { left, right } => binary(BinaryOp::Join, left, right),
        reference::Node::Product { left, right } => binary(BinaryOp::Product, left, right),
        reference::Node::Selection { operand, set } => with_set(SetOp::Selection, operand, set),
        reference::Node::Projection { operand, set } => with_set(SetOp::Projection, operand, set),
        reference::Node::Renaming { operand, old, new } => Node::Renaming { operand, old, new },
        reference::Node::ProjectingOut { operand, old } => Node::ProjectingOut { operand, old },
    }
}

#[test]
fn built_files_are_those_of_the_reference() {
    let mut random = Random::new(311);
    for _ in 0..500 {
        let (relations, count) = (random.between(1, 8), random.between(1, 64));
        let nodes = random.nodes(relations, count);
        let mut builder = ExpressionBuilder::new(relations).expect("a count");
        for (number, &node) in (0..).zip(&nodes) {
            assert_eq!(builder.add(node_of_crate(node)), Ok(number));
        }
        let wanted = reference::encode_file(relations, &nodes);
        let given = builder.expression().expect("accepted");
        assert_eq!(given.bytes(), wanted);
        assert!(given.nodes().eq(nodes.into_iter().map(node_of_crate)));
        assert_eq!(accept(&wanted), Ok(given));
    }
}

/// A builder of relations and nodes that are few enough for operands and numbers to be refused.
#[test]
fn nodes_are_refused_as_by_the_reference() {
    let mut random = Random::new(312);
    let mut refusals = [0; 22];
    for _ in 0..20_000 {
        let (relations, count) = (random.between(1, 8), random.between(1, 3));
        let mut builder = ExpressionBuilder::new(relations).expect("a count");
        for _ in 0..count {
            builder.relation(0).expect("a node");
        }
        let number = random.between(1, 5);
        let mut node = random.node(9, number);
        if let reference::Node::Renaming { new, .. } = &mut node {
            *new = random.likely_byte();
        }
        if let reference::Node::Selection { set, .. } = &mut node {
            *set |= u16::from(random.byte() & 1);
        }
        let bytes = reference::encode_node(&node);
        let wanted = reference::read_node(relations, count, &bytes).map(|_| count);
        let given = builder.add(node_of_crate(node));
        assert_eq!(
            given.map_err(|refusal| refusal.number()),
            wanted,
            "{node:?}"
        );
        refusals[usize::from(wanted.err().unwrap_or(0))] += 1;
        let nodes = builder.expression().expect("accepted").node_count();
        assert_eq!(nodes, count + u8::from(wanted.is_ok()));
    }
    assert!([0, 7, 8, 9].iter().all(|&number| refusals[number] > 100));
}

/// The text of a type, made plainly.
fn text_of(held: &Type) -> String {
    let name = |attribute: &u32| match attribute {
        1..=15 => format!("a{attribute}"),
        _ => attribute.to_string(),
    };
    let names: Vec<String> = held.iter().map(name).collect();
    format!("({})", names.join(", "))
}

/// Compares the view of a schema's bytes, and builds the same schema again.
fn compare_schema(relations: u8, bytes: &[u8]) -> u8 {
    let given = Schema::read(relations, bytes);
    let wanted = match read_schema(relations, bytes) {
        Ok(wanted) => wanted,
        Err(refusal) => {
            let given = given.map_err(|refusal| refusal.number());
            assert_eq!(given, Err(refusal), "{}", to_hexadecimal(bytes));
            return refusal;
        }
    };
    let given = given.expect("a schema");
    assert_eq!(given.bytes(), bytes);
    let mut builder = SchemaBuilder::new();
    let mut texts = Vec::new();
    for (relation, held) in (0..).zip(&wanted) {
        let record = given.record(relation).expect("a record");
        assert_eq!(record.bytes(), encode_record(held));
        assert_eq!(TypeRecord::read(record.bytes()), Ok(record));
        assert!(record.attributes().map(u32::from).eq(held.iter().copied()));
        assert_eq!(record.to_string(), text_of(held));
        texts.push(format!("r{relation}{record}"));
        let attributes = held.iter().rev().map(|&attribute| attribute as u16);
        assert_eq!(builder.relation(attributes), Ok(relation));
    }
    assert_eq!(given.to_string(), texts.join(", "));
    assert_eq!(builder.schema(), Ok(given));
    0
}

#[test]
fn schemas_are_those_of_the_reference() {
    let mut random = Random::new(313);
    let mut refusals = [0; 27];
    for round in 0..3_000 {
        let (relations, count) = (random.between(1, 8), random.between(1, 8));
        let formulas = infer(&random.mild_file(relations, count))
            .expect("accepted")
            .formulas;
        let most = [10, 40, 300][random.below(3)];
        let ordinary = random.below(most);
        let node = random.likely_node(&formulas);
        let image = random.image(&formulas[node], relations, ordinary);
        if image.iter().any(|held| held.range(16..).count() > 255) {
            continue;
        }
        let mut bytes = encode_schema(&image);
        if round % 2 == 0 {
            random.disturb(&mut bytes);
        }
        refusals[usize::from(compare_schema(relations, &bytes))] += 1;
    }
    println!("{refusals:?}");
    assert!([0, 14, 15, 16, 17, 25]
        .iter()
        .all(|&number| refusals[number] > 0));
}

/// Compares the view of an instantiation's bytes, and builds the same instantiation again.
fn compare_instantiation(bytes: &[u8]) -> u8 {
    let given = Instantiation::read(bytes);
    let wanted = read_instantiation(bytes).and_then(|wanted| match wanted.lists.get(&0) {
        Some(_) => Err(STANDING_BIT_NO_TYPE_VARIABLE),
        None => Ok(wanted),
    });
    let wanted = match wanted {
        Ok(wanted) => wanted,
        Err(refusal) => {
            let given = given.map_err(|refusal| refusal.number());
            assert_eq!(given, Err(refusal), "{}", to_hexadecimal(bytes));
            return refusal;
        }
    };
    let given = given.expect("an instantiation");
    let mut builder = InstantiationBuilder::new();
    let mut text = String::new();
    for (attribute, &subset) in (1..).zip(&wanted.subsets) {
        assert_eq!(given.subset(attribute), Some(subset));
        builder
            .give_subset(attribute, subset)
            .expect("a special attribute");
        if subset != 0 {
            text += &format!("a{attribute}: {subset:02x}\n");
        }
    }
    assert_eq!(given.lists().count(), wanted.lists.len());
    for ((subset, list), (&s, wanted)) in given.lists().zip(&wanted.lists) {
        assert_eq!(usize::from(subset), s);
        assert!(list.map(u32::from).eq(wanted.iter().copied()));
        let listed: Vec<String> = wanted.iter().map(u32::to_string).collect();
        text += &format!("{s:02x}: {}\n", listed.join(", "));
    }
    for (&s, list) in wanted.lists.iter().rev() {
        for &attribute in list.iter().rev() {
            builder
                .add_to_list(s as u8, attribute as u16)
                .expect("an ordinary attribute");
        }
    }
    assert_eq!(given.to_string(), text);
    assert_eq!(builder.instantiation(), given);
    0
}

#[test]
fn instantiations_are_those_of_the_reference() {
    let mut random = Random::new(314);
    let mut refusals = [0; 22];
    for round in 0..3_000 {
        let (relations, count) = (random.between(1, 8), random.between(1, 8));
        let formulas = infer(&random.mild_file(relations, count))
            .expect("accepted")
            .formulas;
        let node = random.likely_node(&formulas);
        let ordinary = random.below(60);
        let mut instantiation = random.instantiation(&formulas[node], ordinary);
        if round % 4 == 0 {
            random.disturb_instantiation(relations, &mut instantiation);
        }
        let mut bytes = encode_instantiation(&instantiation);
        if round % 4 == 1 {
            random.disturb(&mut bytes);
        }
        refusals[usize::from(compare_instantiation(&bytes))] += 1;
    }
    println!("{refusals:?}");
    let met = [0, 14, 15, 16, 17, 19, 20];
    assert!(met.iter().all(|&number| refusals[number] > 0));
}
