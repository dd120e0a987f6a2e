//! The header for callers in C, compiled and used: the example program, every constant, and C++.

use std::collections::BTreeSet;
use std::fs;
use std::path::{Path, PathBuf};
use std::process::{Command, Output};

use type_formula::{c, Refusal};
use type_formula_tests::examples::{e1, to_hexadecimal};
use type_formula_tests::formula_examples::formula_examples;
use type_formula_tests::query_examples::E1_TEXT;

const HEADER: &str = include_str!("../../../include/type_formula.h");
const C: [&str; 2] = ["gcc", "-std=c99"];
const CPP: [&str; 2] = ["g++", "-std=c++11"];
const WARNINGS: [&str; 4] = ["-Wall", "-Wextra", "-Wpedantic", "-Werror"];

/// A path of the repository.
fn repository(path: &str) -> PathBuf {
    Path::new(env!("CARGO_MANIFEST_DIR")).join("..").join(path)
}

/// A path for what a test writes.
fn written(name: &str) -> PathBuf {
    Path::new(env!("CARGO_TARGET_TMPDIR")).join(name)
}

/// Compiles a source file with the header, linked with the archive, and gives the program.
fn compile(compiler: [&str; 2], source: &Path, name: &str) -> PathBuf {
    let program = written(name);
    let [command, standard] = compiler;
    let output = Command::new(command)
        .arg(standard)
        .args(WARNINGS)
        .arg("-I")
        .arg(repository("include"))
        .arg(source)
        .arg(Path::new(env!("TYPE_FORMULA_ARCHIVE_DIRECTORY")).join("libtype_formula.a"))
        .arg("-o")
        .arg(&program)
        .output()
        .unwrap_or_else(|error| panic!("{command}: {error}"));
    let errors = String::from_utf8_lossy(&output.stderr);
    assert!(output.status.success(), "{}\n{errors}", source.display());
    program
}

/// Writes a source file and compiles it.
fn compile_text(compiler: [&str; 2], text: &str, name: &str) -> PathBuf {
    let source = written(name);
    fs::write(&source, text).expect("written");
    compile(compiler, &source, &format!("{name}.program"))
}

/// Runs a program in the top directory of the repository.
fn run(program: &Path, arguments: &[&Path]) -> Output {
    Command::new(program)
        .args(arguments)
        .current_dir(repository(""))
        .output()
        .unwrap_or_else(|error| panic!("{}: {error}", program.display()))
}

/// What a program that ended with this status wrote to standard output.
fn text(output: Output, status: i32) -> String {
    assert_eq!(output.status.code(), Some(status), "{output:?}");
    String::from_utf8(output.stdout).expect("text")
}

#[test]
fn the_example_prints_what_is_expected() {
    let program = compile(C, &repository("examples/layouts.c"), "layouts");
    let wanted = fs::read_to_string(repository("examples/layouts.txt")).expect("readable");
    let e1 = run(&program, &[Path::new("examples/e1")]);
    assert_eq!(text(e1, 0), wanted);
    assert_eq!(text(run(&program, &[]), 0), wanted, "without a name");
}

/// The file of the example of this name.
fn file_of(name: &str) -> Vec<u8> {
    let examples = formula_examples();
    let example = examples.iter().find(|example| example.name == name);
    example.expect("an example").bytes()
}

/// E10's witness has two ordinary attributes, which come back from its instantiation.
#[test]
fn the_example_prints_witnesses_with_ordinary_attributes() {
    let program = compile(C, &repository("examples/layouts.c"), "layouts_of_e10");
    let file = written("e10_for_layouts");
    fs::write(&file, file_of("E10")).expect("written");
    let printed = text(run(&program, &[&file]), 0);
    let schema = "01 00 01 10 00 02 00 01 00 01 11 00 01 00 02 10 00 11 00";
    let lines: Vec<&str> = printed.lines().collect();
    assert_eq!(lines[0], "node 8 typable, memberships 5");
    assert_eq!(lines[1], format!("witness: {schema}"));
    assert_eq!(lines[2], "output: 03 00 02 10 00 11 00");
    assert!(lines[3].starts_with("instantiation: 02 00 "), "{printed}");
    assert!(lines[3].ends_with(" 01 10 00 01 11 00"), "{printed}");
    assert_eq!(lines[4], format!("schema: {schema}"));
    assert_eq!(lines.len(), 5);
}

#[test]
fn the_example_prints_untypable_and_refusals() {
    let program = compile(C, &repository("examples/layouts.c"), "layouts_of_others");
    let print = |bytes: &[u8], status| {
        let file = written("file_for_layouts");
        fs::write(&file, bytes).expect("written");
        text(run(&program, &[&file]), status)
    };
    let mut bytes = file_of("E5");
    assert_eq!(print(&bytes, 0), "node 2 untypable, attribute 1\n");
    let e7 = print(&file_of("E7"), 0);
    assert_eq!(e7, "node 1 untypable, attribute 0\n");
    bytes.push(0);
    for (file, refusal) in [
        (&bytes[..], Refusal::NodesFollowed),
        (&[8; 1_000], Refusal::NodeMap),
        (&[], Refusal::HeaderTruncated),
    ] {
        let wanted = format!("file refused {}: {refusal}\n", refusal.number());
        assert_eq!(print(file, 1), wanted);
    }
    assert_eq!(text(run(&program, &[Path::new("no such file")]), 2), "");
}

/// The name in C of a refusal, as `TYPE_FORMULA_NODE_MAP` of `NodeMap`.
fn name_in_c(refusal: Refusal) -> String {
    let mut name = String::from("TYPE_FORMULA");
    for letter in format!("{refusal:?}").chars() {
        if letter.is_uppercase() {
            name.push('_');
        }
        name.push(letter.to_ascii_uppercase());
    }
    name
}

/// The constants of the crate, by their names in C.
fn constants_of_crate() -> Vec<(String, usize)> {
    let sizes = [
        ("MOST_RELATIONS", type_formula::MOST_RELATIONS),
        ("MOST_NODES", type_formula::MOST_NODES),
        ("LONGEST_FILE", type_formula::LONGEST_FILE),
        ("LONGEST_QUERY", type_formula::LONGEST_QUERY),
        ("FORMULA_SIZE", type_formula::FORMULA_SIZE),
        ("WORK_SIZE", type_formula::WORK_SIZE),
        ("OUTPUT_SIZE", type_formula::OUTPUT_SIZE),
        ("SCHEMA_SIZE", type_formula::SCHEMA_SIZE),
        ("INSTANTIATION_SIZE", type_formula::INSTANTIATION_SIZE),
        ("UNTYPED", usize::from(c::UNTYPED)),
        ("UNTYPABLE", usize::from(c::UNTYPABLE)),
    ];
    let sizes = sizes.map(|(name, value)| (format!("TYPE_FORMULA_{name}"), value));
    let refusals = refusals().map(|refusal| (name_in_c(refusal), usize::from(refusal.number())));
    let constants = sizes.into_iter().chain(versions());
    constants.chain(refusals).collect()
}

/// All refusals.
fn refusals() -> impl Iterator<Item = Refusal> {
    (0..=u8::MAX).filter_map(|number| Refusal::try_from(number).ok())
}

/// The version of the crate, by the names of the header.
fn versions() -> [(String, usize); 4] {
    let parts = type_formula::VERSION.split('.');
    let parts: Vec<usize> = parts.map(|part| part.parse().expect("a number")).collect();
    let [major, minor, patch] = parts[..] else {
        panic!("version {}", type_formula::VERSION);
    };
    let whole = 10_000 * major + 100 * minor + patch;
    let parts = [
        ("", whole),
        ("_MAJOR", major),
        ("_MINOR", minor),
        ("_PATCH", patch),
    ];
    parts.map(|(part, value)| (format!("TYPE_FORMULA_VERSION{part}"), value))
}

/// The names of the constants of the header: all names in capitals but that of its guard.
fn constants_of_header() -> BTreeSet<&'static str> {
    let is_in_name = |letter: char| letter.is_ascii_alphanumeric() || letter == '_';
    HEADER
        .split(|letter| !is_in_name(letter))
        .filter(|name| name.starts_with("TYPE_FORMULA_") && *name != "TYPE_FORMULA_H")
        .collect()
}

#[test]
fn the_header_has_the_constants_of_the_crate() {
    let lines: String = constants_of_header()
        .iter()
        .map(|name| format!("    printf(\"{name} %lld\\n\", (long long){name});\n"))
        .collect();
    let includes = "#include <stdio.h>\n#include \"type_formula.h\"\n";
    let source = format!("{includes}\nint main(void)\n{{\n{lines}}}\n");
    let printed = text(run(&compile_text(C, &source, "constants.c"), &[]), 0);
    let given: BTreeSet<String> = printed.lines().map(String::from).collect();
    let wanted = constants_of_crate().into_iter();
    let wanted: BTreeSet<String> = wanted
        .map(|(name, value)| format!("{name} {value}"))
        .collect();
    assert_eq!(wanted.len(), 42);
    assert_eq!(given, wanted);
}

/// Prints the text of each number that an answer can have.
const TEXTS: &str = "\
#include <stdio.h>
#include \"type_formula.h\"

int main(void)
{
    int number;
    for (number = 0; number < 256; number++)
        printf(\"%d %s\\n\", number, type_formula_refusal_text(number));
    return 0;
}
";

#[test]
fn the_header_has_the_texts_of_the_crate() {
    let printed = text(run(&compile_text(C, TEXTS, "texts.c"), &[]), 0);
    let wanted = (0..=u8::MAX).map(|number| match Refusal::try_from(number) {
        Ok(refusal) => format!("{number} {refusal}\n"),
        Err(_) => format!("{number} no refusal\n"),
    });
    assert_eq!(printed, wanted.collect::<String>());
}

/// Prints the bytes of the file of each query, or what its refusal says.
const QUERIES: &str = "\
#include <stdio.h>
#include <string.h>
#include \"type_formula.h\"

int main(int count, char **arguments)
{
    uint8_t file[TYPE_FORMULA_LONGEST_FILE];
    size_t size, i;
    int place;
    for (place = 1; place < count; place++) {
        const char *text = arguments[place];
        uint8_t answer = type_formula_parse_query(3, (const uint8_t *)text, strlen(text), file,
                                                  sizeof file, &size);
        if (answer != 0) {
            printf(\"refused %d: %s\\n\", answer, type_formula_refusal_text(answer));
            continue;
        }
        for (i = 0; i < size; i++)
            printf(\"%02x%c\", file[i], i + 1 < size ? ' ' : '\\n');
    }
    return 0;
}
";

#[test]
fn queries_are_parsed_from_c() {
    let program = compile_text(C, QUERIES, "queries.c");
    let long = "r".repeat(type_formula::LONGEST_QUERY + 1);
    let nodes = "P[]".repeat(type_formula::MOST_NODES) + "r0";
    let texts = [E1_TEXT, "S[2,1]r0", &long, &nodes, "r3", "D[0]r0"];
    let printed = text(run(&program, &texts.map(Path::new)), 0);
    let refusals = [
        Refusal::QuerySyntax,
        Refusal::QueryLength,
        Refusal::QueryNodes,
        Refusal::RelationNumber,
        Refusal::Attribute,
    ];
    let refused = |refusal: Refusal| format!("refused {}: {refusal}\n", refusal.number());
    let wanted = to_hexadecimal(&e1().bytes) + "\n";
    assert_eq!(printed, wanted + &refusals.map(refused).concat());
}

/// Prints what Preview says of each record for E1's last node, its two numbers, and the bytes of
/// the edited file and what a short slice gives; or what the refusal says. The records are in the
/// arguments, as hexadecimal pairs without spaces.
const EDITS: &str = "\
#include <stdio.h>
#include \"type_formula.h\"

static uint8_t work[TYPE_FORMULA_WORK_SIZE];

static size_t read_record(const char *text, uint8_t *record)
{
    size_t length = 0;
    unsigned byte;
    while (sscanf(text + 2 * length, \"%2x\", &byte) == 1)
        record[length++] = (uint8_t)byte;
    return length;
}

static void print_edited(const uint8_t *record, size_t length)
{
    static const uint8_t e1[25] = {3, 7, 1, 0, 98, 0, 1, 2, 1, 1, 14, 1, 2, 1, 1, 2, 14, 3, 4, 3,
                                   26, 5, 5, 12, 0};
    uint8_t result[TYPE_FORMULA_LONGEST_FILE], attribute = 77, memberships = 99;
    size_t size, i;
    uint8_t answer = type_formula_preview(e1, sizeof e1, 6, record, length, work, sizeof work,
                                          &attribute, &memberships);
    printf(\"preview %d, attribute %d, memberships %d\\n\", answer, attribute, memberships);
    answer = type_formula_edit(e1, sizeof e1, 6, record, length, result, sizeof result, &size);
    if (answer != 0) {
        printf(\"refused %d: %s\\n\", answer, type_formula_refusal_text(answer));
        return;
    }
    for (i = 0; i < size; i++)
        printf(\"%02x%c\", result[i], i + 1 < size ? ' ' : '\\n');
    answer = type_formula_edit(e1, sizeof e1, 6, record, length, result, sizeof result - 1, &size);
    printf(\"%s\\n\", type_formula_refusal_text(answer));
}

int main(int count, char **arguments)
{
    uint8_t record[16];
    int place;
    for (place = 1; place < count; place++)
        print_edited(record, read_record(arguments[place], record));
    return 0;
}
";

#[test]
fn files_are_edited_from_c() {
    let program = compile_text(C, EDITS, "edits.c");
    let edited = |numbers: &str, record: &str| {
        let front = to_hexadecimal(&e1().bytes[..20]);
        let short = Refusal::EditSlice;
        format!("preview {numbers}\n{front} {record}\n{short}\n")
    };
    let refused = |refusal: Refusal| {
        let number = refusal.number();
        format!("preview {number}, attribute 77, memberships 99\nrefused {number}: {refusal}\n")
    };
    for (record, wanted) in [
        ("1a 05 06 0c 00", "0, attribute 77, memberships 3"),
        ("1a 05 05 fe ff", "0, attribute 77, memberships 16"),
        ("62 05 02 02", "255, attribute 2, memberships 99"),
    ] {
        let argument = record.replace(' ', "");
        let printed = text(run(&program, &[Path::new(&argument)]), 0);
        assert_eq!(printed, edited(wanted, record));
    }
    for (argument, refusal) in [
        ("", Refusal::NodeTruncated),
        ("00", Refusal::NodeMap),
        ("0e050500", Refusal::OperatorCode),
        ("0103", Refusal::RelationNumber),
        ("220601", Refusal::Operand),
        ("220510", Refusal::Attribute),
        ("010200", Refusal::NodesFollowed),
    ] {
        let printed = text(run(&program, &[Path::new(argument)]), 0);
        assert_eq!(printed, refused(refusal));
    }
}

/// The header twice, and a call, so that the name is looked up as one of C.
const IN_CPP: &str = "\
#include \"type_formula.h\"
#include \"type_formula.h\"

int main()
{
    const uint8_t file[1] = { 0 };
    size_t start = 1;
    size_t length = type_formula_record(file, 0, 0, &start);
    return static_cast<int>(length + start + (*type_formula_refusal_text(0) != 'n'));
}
";

#[test]
fn the_header_is_usable_from_cpp() {
    if Command::new(CPP[0]).arg("--version").output().is_err() {
        println!("no {}: not compiled", CPP[0]);
        return;
    }
    let program = compile_text(CPP, IN_CPP, "calls_from_cpp.cpp");
    assert_eq!(text(run(&program, &[]), 0), "");
}
