//! The command `examples/query.sh`, which prints the formula of a query typed as text.

use crate::command_folder::{parts, Folder, Tested};

/// The program prints each of its arguments, and how many they are.
const QUERY: Tested = Tested {
    command: "query.sh",
    program: "list_query",
    body: "printf '<%s>\\n' \"$@\" $#",
    arguments: &["3", "S[2,3]((N[1>2]r0+r1)*r2)"],
    printed: "<3>\n<S[2,3]((N[1>2]r0+r1)*r2)>\n<2>\n",
};

#[test]
fn it_shows_what_is_proved_once_and_leaves_no_file() {
    QUERY.assert_shows_once();
}

#[test]
fn it_builds_again_where_a_source_file_is_newer() {
    QUERY.assert_builds_again();
}

#[test]
fn it_fails_where_something_is_not_proved() {
    QUERY.assert_fails();
}

/// The program gets the text as it was typed, whatever it is.
#[test]
fn arguments_are_not_changed() {
    let folder = Folder::new(&QUERY, "arguments");
    folder.run(QUERY.arguments);
    for [relations, text] in [
        ["3", ""],
        ["", ""],
        ["3", "*"],
        ["8", "(r0#r1) "],
        ["8", " $HOME `pwd` \\ ' \" ;"],
        ["-n", "--help"],
        ["3", "P[]r0\n"],
    ] {
        let given = folder.run(&[relations, text]);
        let printed = format!("<{relations}>\n<{text}>\n<2>\n");
        assert_eq!(parts(&given), (Some(0), &printed[..], ""));
    }
}

#[test]
fn it_says_how_it_is_used() {
    let folder = Folder::new(&QUERY, "usage");
    for arguments in [&[][..], &["3"], &["3", "r0", "another"]] {
        let given = folder.run(arguments);
        let usage = "usage: sh examples/query.sh RELATIONS TEXT\n";
        assert_eq!(parts(&given), (Some(2), "", usage));
    }
}
