//! One operation, called a number of times.

use crate::calls::{call, By, Operation, ALL, OPERATIONS};
use crate::settings::{
    cover_of_dense_columns, cover_of_eight, cover_of_three, e1_query, e1_with_10_columns,
    filled_by_the_fewest, of_attributes, of_nodes, query_of_length, query_of_lists,
    query_of_prefixes, unions_of_eight, unions_of_one, untypable_of_64_nodes, untypable_of_7_nodes,
    Lists, Setting,
};
use crate::slices::Slices;

/// The setting with so many nodes, with so many and no type, with a cover of three or eight
/// relations or of dense columns, or with one by the fewest subsets, with 64 nodes of which most
/// are unions, or with 64 nodes and 255 ordinary attributes.
fn setting(size: &str) -> Option<Setting> {
    Some(match size {
        "7" => e1_with_10_columns(),
        "8" | "16" | "32" | "64" => of_nodes(size.parse().ok()?),
        "7untypable" => untypable_of_7_nodes(),
        "64untypable" => untypable_of_64_nodes(),
        "fewest" => filled_by_the_fewest(),
        "coverofthree" => cover_of_three(),
        "coverofeight" => cover_of_eight(),
        "coverofdense" => cover_of_dense_columns(),
        "64unionsofeight" => unions_of_eight(),
        "64unionsofone" => unions_of_one(),
        "64x255" => of_attributes(64, 255, Lists::Three),
        "64x255each" => of_attributes(64, 255, Lists::OneInEach),
        _ => return None,
    })
}

/// The query of so many bytes; E1 has 24. Or one of 63 prefixes, or of lists.
fn query(size: &str) -> Option<Setting> {
    Some(match size {
        "24" => e1_query(),
        "32" | "64" | "128" | "256" | "512" => query_of_length(size.parse().ok()?),
        "191deep" => query_of_prefixes(),
        "512lists" => query_of_lists(),
        _ => return None,
    })
}

/// Calls the operation `count` times; nothing if an argument is not understood or there is
/// no such call.
pub fn run(operation: &str, size: &str, count: &str, by: &str) -> Option<()> {
    let is_operation = |each: &Operation| format!("{each:?}").eq_ignore_ascii_case(operation);
    let is_by = |each: &By| format!("{each:?}").eq_ignore_ascii_case(by);
    let operation = OPERATIONS.into_iter().find(is_operation)?;
    let by = ALL.into_iter().find(is_by)?;
    let setting = match operation {
        Operation::ParseQuery => query(size)?,
        _ => setting(size)?,
    };
    let count: u64 = count.parse().ok()?;
    let (call, mut slices) = (call(operation, by, &setting)?, Slices::new());
    (0..count).for_each(|_| call(&mut slices));
    Some(())
}
