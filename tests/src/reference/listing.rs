//! The text of the listing program, written plainly from documents 01 and 02.

use super::{
    allowed_subsets, formulas, is_output, read_file, type_variables, untypable_attribute, File,
    Formula, Node,
};

/// The attributes that a node names, as a set.
fn attributes_of(node: &Node) -> u16 {
    match *node {
        Node::Selection { set, .. } | Node::Projection { set, .. } => set,
        Node::Renaming { old, new, .. } => 1 << old | 1 << new,
        Node::ProjectingOut { old, .. } => 1 << old,
        _ => 0,
    }
}

/// The attributes named anywhere in the file, rising.
fn named_attributes(file: &File) -> impl Iterator<Item = usize> {
    let named = file
        .nodes
        .iter()
        .fold(0, |named, node| named | attributes_of(node));
    (1..=15).filter(move |attribute| named >> attribute & 1 == 1)
}

/// A line: its name, a colon, and each item after one space.
fn line(name: &str, items: impl Iterator<Item = String>) -> String {
    let items: String = items.map(|item| format!(" {item}")).collect();
    format!("{name}:{items}\n")
}

/// The lines of the relations and of the output: those type variables each.
fn variable_lines(formula: &Formula, relations: u8) -> String {
    let variables = type_variables(formula);
    let of = |name: &str, is_listed: &dyn Fn(usize) -> bool| {
        let listed = variables.iter().filter(|&&s| is_listed(s));
        line(name, listed.map(|s| format!("{s:02x}")))
    };
    let mut lines: String = (0..relations)
        .map(|relation| of(&format!("r{relation}"), &|s| s >> relation & 1 == 1))
        .collect();
    lines += &of("out", &|s| is_output(formula, 0, s));
    lines
}

/// The line of an attribute: its allowed subsets, `+` where in the output.
fn attribute_line(formula: &Formula, attribute: usize) -> String {
    let subsets = allowed_subsets(formula, attribute).into_iter();
    let items = subsets.map(|s| {
        let sign = if is_output(formula, attribute, s) {
            '+'
        } else {
            '-'
        };
        format!("{s:02x}{sign}")
    });
    line(&format!("a{attribute}"), items)
}

/// The lines of the last node of an accepted file.
fn last_node(file: &File) -> String {
    let number = file.nodes.len() - 1;
    let formula = &formulas(file)[number];
    let verdict = match untypable_attribute(formula, file.relations) {
        None => "typable",
        Some(_) => "untypable",
    };
    let mut lines = format!("node {number} {verdict}\n");
    lines += &variable_lines(formula, file.relations);
    for attribute in named_attributes(file) {
        lines += &attribute_line(formula, attribute);
    }
    lines
}

/// What the listing program prints for these bytes of an expression file.
pub fn listing(bytes: &[u8]) -> String {
    match read_file(bytes) {
        Ok(file) => last_node(&file),
        Err(refusal) => format!("refused {refusal}\n"),
    }
}
