//! The C functions are declared three times: in the engine's source, in the header and in the
//! crate. Nothing in a link compares declarations, so this does, by their text.

use std::fs;
use std::path::Path;

const HEADER: &str = include_str!("../../../include/type_formula.h");
const CRATE: &str = include_str!("../../../rust/src/c.rs");

/// A declaration: its name, the result's type, and each parameter with its type, as in C.
#[derive(Debug, PartialEq, Eq, PartialOrd, Ord)]
struct Function {
    name: String,
    result: String,
    parameters: Vec<(String, String)>,
}

/// Names that are others for callers than in the engine's source: a function, the name there and
/// theirs. The numbers that Apply writes have names of their own, and no parameter of the engine
/// can be called `result`.
const NAMES_OF_CALLERS: [(&str, &str, &str); 4] = [
    ("type_formula_apply", "size", "schema_size"),
    ("type_formula_apply", "width", "out_size"),
    ("type_formula_edit", "res", "result"),
    ("type_formula_edit", "res_len", "result_len"),
];

/// The type in C of a number or a pointer to one.
fn type_in_c(rust: &str) -> &'static str {
    match rust {
        "u8" => "uint8_t",
        "u64" => "uint64_t",
        "usize" => "size_t",
        "*const u8" => "const uint8_t *",
        "*mut u8" | "&mut u8" => "uint8_t *",
        "*mut usize" | "&mut usize" => "size_t *",
        other => panic!("type {other}"),
    }
}

/// A parameter in C; a slice is a pointer and then a length.
fn parameters_in_c(parameter: &str) -> Vec<(String, String)> {
    let (name, rust) = parameter.split_once(": ").expect("a name and a type");
    let pair = |name: &str, c: &str| (name.to_string(), c.to_string());
    let slice = |c| vec![pair(name, c), pair(&format!("{name}_len"), "size_t")];
    match rust {
        "&[u8]" => slice("const uint8_t *"),
        "&mut [u8]" => slice("uint8_t *"),
        number => vec![pair(name, type_in_c(number))],
    }
}

/// The parts of a list that commas separate, without space around them.
fn items(list: &str) -> impl Iterator<Item = &str> {
    list.split(',')
        .map(str::trim)
        .filter(|item| !item.is_empty())
}

/// The functions that a text in Rust or Rattle declares.
fn declared_in_rust(text: &str) -> Vec<Function> {
    let declaration = |text: &str| {
        let (name, rest) = text.split_once('(').expect("parameters");
        let (parameters, rest) = rest.split_once(')').expect("an end of the parameters");
        let result = rest.trim_start_matches(" -> ");
        let result = result.split([';', '\n']).next().expect("a result");
        Function {
            name: format!("type_formula_{name}"),
            result: type_in_c(result).to_string(),
            parameters: items(parameters).flat_map(parameters_in_c).collect(),
        }
    };
    text.split("fn type_formula_")
        .skip(1)
        .map(declaration)
        .collect()
}

/// The text without what stands between `/*` and `*/`.
fn without_comments(text: &str) -> String {
    let mut parts = text.split("/*");
    let first = parts.next().unwrap_or("");
    let rest = parts.map(|part| part.split_once("*/").expect("an end of the comment").1);
    [first].into_iter().chain(rest).collect()
}

/// A name in C and what stands before it.
fn name_and_type(text: &str) -> (String, String) {
    let start = text.rfind([' ', '*']).expect("a type") + 1;
    (text[start..].to_string(), text[..start].trim().to_string())
}

/// The functions that a text in C declares, before the one that the header defines.
fn declared_in_c(text: &str) -> Vec<Function> {
    let text = without_comments(text);
    let (text, _) = text.split_once("static inline").expect("a definition");
    let declaration = |line: &str| {
        let (start, parameters) = line.trim().split_once('(')?;
        let (name, result) = name_and_type(start.lines().last()?);
        Some(Function {
            name,
            result,
            parameters: items(parameters.trim_end_matches(')'))
                .map(name_and_type)
                .collect(),
        })
    };
    text.split(';').filter_map(declaration).collect()
}

/// The functions that the engine's source exports, with the parameters' names for callers.
fn exported() -> Vec<Function> {
    let directory = Path::new(env!("CARGO_MANIFEST_DIR")).join("../crates/type_formula/src");
    let files = fs::read_dir(directory).expect("the source of the exports");
    let mut functions: Vec<Function> = files
        .map(|file| fs::read_to_string(file.expect("a file").path()).expect("text"))
        .flat_map(|text| declared_in_rust(&text))
        .collect();
    for Function {
        name, parameters, ..
    } in &mut functions
    {
        for (own, _) in parameters {
            let mut names = NAMES_OF_CALLERS.iter();
            if let Some((_, _, callers)) = names.find(|it| it.0 == name && it.1 == own) {
                *own = callers.to_string();
            }
        }
    }
    functions
}

/// Rising by name.
fn sorted(mut functions: Vec<Function>) -> Vec<Function> {
    functions.sort();
    functions
}

#[test]
fn the_header_declares_what_the_engine_exports() {
    let exported = sorted(exported());
    assert_eq!(exported.len(), 11);
    assert_eq!(sorted(declared_in_c(HEADER)), exported);
}

#[test]
fn the_crate_declares_what_the_engine_exports() {
    assert_eq!(sorted(declared_in_rust(CRATE)), sorted(exported()));
}
