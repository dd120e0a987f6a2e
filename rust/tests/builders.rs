//! Builders: what they build is what the operations read, and mistakes are refusals.

use type_formula::*;

/// A builder with one node, r0 of three relations.
fn one_node() -> ExpressionBuilder {
    let mut builder = ExpressionBuilder::new(3).expect("three relations");
    assert_eq!(builder.relation(0), Ok(0));
    builder
}

#[test]
fn every_kind_of_node_is_built_and_read() {
    let mut builder = one_node();
    assert_eq!(builder.relation(2), Ok(1));
    assert_eq!(builder.union(0, 1), Ok(2));
    assert_eq!(builder.difference(1, 0), Ok(3));
    assert_eq!(builder.join(2, 3), Ok(4));
    assert_eq!(builder.product(4, 4), Ok(5));
    assert_eq!(builder.selection(5, [1, 15]), Ok(6));
    assert_eq!(builder.projection(6, []), Ok(7));
    assert_eq!(builder.renaming(7, 3, 4), Ok(8));
    assert_eq!(builder.projecting_out(8, 4), Ok(9));
    let text = "\
node 0: r0
node 1: r2
node 2: union of nodes 0 and 1
node 3: difference of nodes 1 and 0
node 4: natural join of nodes 2 and 3
node 5: product of nodes 4 and 4
node 6: selection {a1, a15} of node 5
node 7: projection {} of node 6
node 8: renaming of a3 into a4 in node 7
node 9: projecting a4 out of node 8
";
    let expression = builder.expression().expect("accepted");
    assert_eq!(expression.to_string(), text);
    assert_eq!(expression.node(1), Some(Node::Relation { relation: 2 }));
    assert_eq!(expression.node(10), None);
    let mut again = ExpressionBuilder::new(expression.relation_count()).expect("a count");
    for node in expression.nodes() {
        again.add(node).expect("a node");
    }
    assert_eq!(again.expression(), Ok(expression));
}

#[test]
fn mistakes_are_refused_and_change_nothing() {
    for relations in [0, 9, 255] {
        let given = ExpressionBuilder::new(relations);
        assert_eq!(given.err(), Some(Refusal::RelationCount));
    }
    let none = ExpressionBuilder::new(1).expect("one relation");
    assert_eq!(none.expression(), Err(Refusal::NodeCount));
    let mut builder = one_node();
    assert_eq!(builder.relation(3), Err(Refusal::RelationNumber));
    assert_eq!(builder.union(1, 0), Err(Refusal::Operand));
    assert_eq!(builder.product(0, 255), Err(Refusal::Operand));
    assert_eq!(builder.selection(0, [0]), Err(Refusal::Attribute));
    assert_eq!(builder.projection(0, [1, 16]), Err(Refusal::Attribute));
    assert_eq!(builder.renaming(0, 1, 16), Err(Refusal::Attribute));
    assert_eq!(builder.projecting_out(0, 0), Err(Refusal::Attribute));
    let set = 0b11;
    let bit_0 = Node::WithSet {
        op: SetOp::Projection,
        operand: 0,
        set,
    };
    assert_eq!(builder.add(bit_0), Err(Refusal::Attribute));
    assert_eq!(
        builder.expression().map(Expression::bytes),
        Ok(&[3, 1, 1, 0][..])
    );
}

#[test]
fn the_longest_file_has_64_nodes() {
    let mut builder = one_node();
    for number in 1..64 {
        assert_eq!(builder.selection(number - 1, 1..=15), Ok(number));
    }
    assert_eq!(builder.selection(0, []), Err(Refusal::NodeCount));
    let expression = builder.expression().expect("accepted");
    assert_eq!(
        (expression.node_count(), expression.bytes().len()),
        (64, 319)
    );
}

#[test]
fn the_longest_schema_is_built() {
    let mut builder = SchemaBuilder::new();
    assert_eq!(builder.schema(), Err(Refusal::RelationCount));
    for relation in 0..8 {
        assert_eq!(builder.relation((1..271).rev()), Ok(relation));
    }
    assert_eq!(builder.relation([]), Err(Refusal::RelationCount));
    let schema = builder.schema().expect("a schema");
    assert_eq!(schema.bytes().len(), SCHEMA_SIZE);
    assert_eq!(schema.records().count(), 8);
    let record = schema.record(7).expect("a record");
    assert!(record.attributes().eq(1..271));
    assert_eq!(record.special_set(), 0xfffe);
    assert_eq!(schema.record(8), None);
}

#[test]
fn a_refused_relation_changes_nothing() {
    let mut builder = SchemaBuilder::new();
    assert_eq!(builder.relation(16..272), Err(Refusal::TooManyAttributes));
    assert_eq!(builder.relation(16..271), Ok(0));
    assert_eq!(
        builder.relation([5, 65_535]),
        Err(Refusal::TooManyAttributes)
    );
    assert_eq!(builder.relation([5, 0]), Err(Refusal::Attribute));
    assert_eq!(builder.relation([]), Err(Refusal::EmptyRecord));
    assert_eq!(builder.relation([5, 16, 5, 16]), Ok(1));
    let schema = builder.schema().expect("a schema");
    let record = schema.record(1).expect("a record");
    assert_eq!(record.to_string(), "(a5, 16)");
    assert_eq!(record.bytes(), [33, 0, 1, 16, 0]);
}

#[test]
fn the_longest_instantiation_is_built() {
    let mut builder = InstantiationBuilder::default();
    for subset in (1..=255).rev() {
        assert_eq!(
            builder.add_to_list(subset, 1_000 - u16::from(subset)),
            Ok(())
        );
    }
    assert_eq!(builder.add_to_list(255, 745), Ok(()));
    assert_eq!(
        builder.add_to_list(255, 999),
        Err(Refusal::RepeatedAttribute)
    );
    assert_eq!(
        builder.add_to_list(255, 16),
        Err(Refusal::TooManyAttributes)
    );
    assert_eq!(builder.add_to_list(0, 16), Err(Refusal::TypeVariable));
    assert_eq!(builder.add_to_list(1, 15), Err(Refusal::ListedAttribute));
    for attribute in [0, 16, 255] {
        assert_eq!(builder.give_subset(attribute, 1), Err(Refusal::Attribute));
    }
    assert_eq!(builder.give_subset(15, 255), Ok(()));
    let instantiation = Instantiation::read(builder.bytes()).expect("an instantiation");
    assert_eq!(instantiation.bytes().len(), INSTANTIATION_SIZE);
    assert_eq!(instantiation.subset(15), Some(255));
    assert_eq!(instantiation.subset(1), Some(0));
    assert_eq!(
        (instantiation.subset(0), instantiation.subset(16)),
        (None, None)
    );
    for (wanted, (subset, list)) in (1..=255).zip(instantiation.lists()) {
        assert_eq!(subset, wanted);
        assert!(list.eq([1_000 - u16::from(subset)]));
    }
    assert_eq!(instantiation.lists().count(), 255);
}

#[test]
fn a_list_rises_whatever_the_order_of_its_attributes() {
    let mut builder = InstantiationBuilder::new();
    for (subset, attribute) in [
        (3, 300),
        (1, 17),
        (3, 16),
        (2, 40),
        (3, 65_535),
        (1, 16_000),
    ] {
        assert_eq!(builder.add_to_list(subset, attribute), Ok(()));
    }
    let text = "01: 17, 16000\n02: 40\n03: 16, 300, 65535\n";
    assert_eq!(builder.instantiation().to_string(), text);
    let read = Instantiation::read(builder.bytes());
    assert_eq!(read, Ok(builder.instantiation()));
    let again = InstantiationBuilder::from(builder.instantiation());
    assert_eq!(again.bytes(), builder.bytes());
}
