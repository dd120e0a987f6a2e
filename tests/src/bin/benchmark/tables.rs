//! The tables.

use crate::calls::{call, check, By, Call, Operation, ALL, OPERATIONS};
use crate::checks::check_words;
use crate::measure::{medians, BATCHES};
use crate::settings::{
    cover_of_dense_columns, cover_of_eight, cover_of_three, e1_query, e1_with_10_columns,
    filled_by_the_fewest, of_attributes, of_nodes, query_of_length, query_of_lists,
    query_of_prefixes, random_of_64_nodes, unions_of_eight, unions_of_one, untypable_of_64_nodes,
    untypable_of_7_nodes, Lists, Setting,
};

/// Prints a row of a markdown table.
fn print_row(cells: &[String]) {
    println!("| {} |", cells.join(" | "));
}

/// Prints the head of a markdown table.
fn print_head(title: &str, cells: &[String]) {
    println!("\n{title}\n");
    print_row(cells);
    println!("|{}", "---|".repeat(cells.len()));
}

/// The cells of an operation: the engine's time, and each other time with the engine's
/// ratio to it; `-` where there is no such call.
fn compared(operation: Operation, setting: &Setting) -> Vec<String> {
    check(operation, setting);
    let calls = ALL.map(|by| call(operation, by, setting));
    let has = calls.each_ref().map(Option::is_some);
    let calls: Vec<Call> = calls.into_iter().flatten().collect();
    let mut times = medians(&calls).into_iter();
    let engine = times.next().expect("has every operation");
    let cell = |has: &bool| match has.then(|| times.next()).flatten() {
        Some(time) => format!("{time:.0} ({:.3})", engine / time),
        None => "-".into(),
    };
    let others: Vec<String> = has[1..].iter().map(cell).collect();
    [vec![format!("{engine:.0}")], others].concat()
}

/// The engine beside the alternatives.
fn print_comparisons() {
    let title = "Nanoseconds, and in brackets the engine's time divided by it. The hand-written \
                 code works on 64-bit words and sorted arrays, with readers of its own and \
                 without an allocation, and is compiled as the engine is.";
    let names = [
        "Operation",
        "Input",
        "engine",
        "other implementation",
        "hand-written",
        "copy",
        "copy by a 64-bit loop",
    ];
    print_head(title, &names.map(String::from));
    let (of_file, of_query) = (&OPERATIONS[..7], &OPERATIONS[7..]);
    let (formula, verdict, others) = (&of_file[..1], &of_file[1..4], &of_file[4..]);
    for (setting, operations) in [
        (e1_with_10_columns(), of_file),
        (untypable_of_7_nodes(), verdict),
        (cover_of_three(), verdict),
        (filled_by_the_fewest(), verdict),
        (cover_of_eight(), verdict),
        (cover_of_dense_columns(), verdict),
        (random_of_64_nodes(), &of_file[..4]),
        (unions_of_eight(), formula),
        (unions_of_one(), formula),
        (untypable_of_64_nodes(), verdict),
        (of_attributes(64, 255, Lists::Three), others),
        (of_attributes(64, 255, Lists::OneInEach), others),
        (e1_query(), of_query),
        (query_of_prefixes(), of_query),
        (query_of_lists(), of_query),
        (query_of_length(512), of_query),
    ] {
        for &operation in operations {
            let front = vec![operation.name().to_string(), setting.name.clone()];
            print_row(&[front, compared(operation, &setting)].concat());
        }
    }
}

/// The calls of a row of previews. The copy of the file is the one beside Edit.
const PREVIEWS: [(Operation, By); 5] = [
    (Operation::Edit, By::Copy),
    (Operation::Verdict, By::Engine),
    (Operation::Preview, By::Engine),
    (Operation::Verdict, By::Words),
    (Operation::Preview, By::Words),
];

/// The cells of a row of previews: their times, and those of Preview with the ratio to Verdict and
/// the copy together.
fn previews(setting: &Setting) -> Vec<String> {
    let calls = PREVIEWS.map(|(operation, by)| call(operation, by, setting));
    let calls: Vec<Call> = calls.into_iter().flatten().collect();
    let times = medians(&calls);
    let cell = |place: usize| match PREVIEWS[place].0 {
        Operation::Preview => {
            let ratio = times[place] / (times[place - 1] + times[0]);
            format!("{:.0} ({ratio:.3})", times[place])
        }
        _ => format!("{:.0}", times[place]),
    };
    (0..PREVIEWS.len()).map(cell).collect()
}

/// Preview beside Verdict of the same file and a copy of the file.
fn print_previews() {
    let title = "Preview beside Verdict of the same file, of which it exchanges the node in the \
                 middle for itself: nanoseconds, and in brackets Preview's time divided by the sum \
                 of those of Verdict and of a copy of the file.";
    let names = [
        "Input",
        "copy of the file",
        "Verdict, engine",
        "Preview, engine",
        "Verdict, hand-written",
        "Preview, hand-written",
    ];
    print_head(title, &names.map(String::from));
    for setting in [
        e1_with_10_columns(),
        untypable_of_7_nodes(),
        cover_of_three(),
        filled_by_the_fewest(),
        cover_of_eight(),
        cover_of_dense_columns(),
        random_of_64_nodes(),
        untypable_of_64_nodes(),
    ] {
        let cells = previews(&setting);
        print_row(&[vec![setting.name], cells].concat());
    }
}

/// A column of a table: its name, and what makes the operation for each setting.
type Column<'a> = (String, (Operation, By), &'a [Setting]);

/// The times of a column, each with its ratio to the one before.
fn with_ratios(times: &[f64]) -> Vec<String> {
    let ratio = |place: usize| match place {
        0 => String::new(),
        _ => format!(" ({:.2})", times[place] / times[place - 1]),
    };
    let cell = |(place, time): (usize, &f64)| format!("{time:.0}{}", ratio(place));
    times.iter().enumerate().map(cell).collect()
}

/// Times as a table; the batches of all its calls alternate. Each row is for
/// one of the counts and for the setting at its place.
fn print_doubling(title: &str, (name, counts): (&str, &[u32]), columns: &[Column]) {
    let mut calls: Vec<Call> = Vec::new();
    for (_, (operation, by), settings) in columns {
        for setting in *settings {
            check(*operation, setting);
            calls.extend(call(*operation, *by, setting));
        }
    }
    let times = medians(&calls);
    let cells: Vec<Vec<String>> = times.chunks(counts.len()).map(with_ratios).collect();
    let names = columns.iter().map(|(name, _, _)| name.clone());
    let names: Vec<String> = [name.to_string()].into_iter().chain(names).collect();
    print_head(title, &names);
    for (place, count) in counts.iter().enumerate() {
        let row = cells.iter().map(|column| column[place].clone());
        let row: Vec<String> = [count.to_string()].into_iter().chain(row).collect();
        print_row(&row);
    }
}

/// Two columns for each operation: the engine and the hand-written code.
fn both<'a>(operations: &[Operation], settings: &'a [Setting]) -> Vec<Column<'a>> {
    let mut columns: Vec<Column> = Vec::new();
    for &operation in operations {
        for (name, by) in [("engine", By::Engine), ("hand-written", By::Words)] {
            let name = format!("{}, {name}", operation.name());
            columns.push((name, (operation, by), settings));
        }
    }
    columns
}

/// The engine and the hand-written code, and a copy of the bytes that Formula writes, as
/// nodes double.
fn print_nodes() {
    let counts = [8, 16, 32, 64];
    let settings = counts.map(|count| of_nodes(count as u8));
    let mut columns = both(&OPERATIONS[..2], &settings);
    let copy = (Operation::Formula, By::Copy);
    columns.push(("copy of the formulas".into(), copy, &settings));
    let title = "As nodes double, m 8: nanoseconds, and in brackets the ratio to the row before.";
    print_doubling(title, ("n", &counts), &columns);
    let title = "As nodes double, m 8 and 15 ordinary attributes: nanoseconds, and in brackets \
                 the ratio to the row before.";
    print_doubling(title, ("n", &counts), &both(&OPERATIONS[4..7], &settings));
    let mut columns = both(&OPERATIONS[2..4], &settings);
    let copy = (Operation::Edit, By::Copy);
    columns.push(("copy of the file".into(), copy, &settings));
    let title = "As nodes double, m 8, the node in the middle exchanged for itself: nanoseconds, \
                 and in brackets the ratio to the row before.";
    print_doubling(title, ("n", &counts), &columns);
}

/// The engine and the hand-written code as attributes double, for so many nodes.
fn print_attributes(nodes: usize) {
    let counts = [15, 31, 63, 127, 255];
    for (name, lists) in [
        ("three lists", Lists::Three),
        ("one attribute in each list", Lists::OneInEach),
    ] {
        let settings = counts.map(|count| of_attributes(nodes, count, lists));
        let title = format!(
            "As ordinary attributes double, n {nodes}, m 8, {name}: nanoseconds, and in \
             brackets the ratio to the row before."
        );
        let columns = both(&OPERATIONS[4..7], &settings);
        print_doubling(&title, ("Ordinary attributes", &counts), &columns);
    }
}

/// The engine, the hand-written code and a copy as the text of a query doubles.
fn print_texts() {
    let counts = [32, 64, 128, 256, 512];
    let settings = counts.map(query_of_length);
    let mut columns = both(&OPERATIONS[7..], &settings);
    let copy = (Operation::ParseQuery, By::Copy);
    columns.push(("copy of text and file".into(), copy, &settings));
    let title = "As the text of a query doubles, 8 bytes a node: nanoseconds, and in brackets the \
                 ratio to the row before.";
    print_doubling(title, ("Bytes", &counts), &columns);
}

pub fn print_all() {
    println!(
        "Medians of {BATCHES} batches; batches of what is compared alternate. Work space and \
         result slices are reused and not cleared between calls."
    );
    check_words();
    print_comparisons();
    print_previews();
    print_nodes();
    print_attributes(7);
    print_attributes(64);
    print_texts();
}
