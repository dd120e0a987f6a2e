//! The command `examples/list.sh`, which prints the formula of a file's last node.

use crate::command_folder::{parts, Folder, Tested};

/// The program prints its input.
const LIST: Tested = Tested {
    command: "list.sh",
    program: "list_formula",
    body: "cat",
    arguments: &["../a file"],
    printed: "text of the file\n",
};

#[test]
fn it_shows_what_is_proved_once_and_leaves_no_file() {
    LIST.assert_shows_once();
}

#[test]
fn it_builds_again_where_a_source_file_is_newer() {
    LIST.assert_builds_again();
}

#[test]
fn it_fails_where_something_is_not_proved() {
    LIST.assert_fails();
}

#[test]
fn it_says_how_it_is_used() {
    let folder = Folder::new(&LIST, "usage");
    for arguments in [&[][..], &["../a file", "another"]] {
        let given = folder.run(arguments);
        let usage = "usage: sh examples/list.sh FILE\n";
        assert_eq!(parts(&given), (Some(2), "", usage));
    }
    let given = folder.run(&["no such file"]);
    let (status, listed, said) = parts(&given);
    assert!(status != Some(0) && listed.is_empty() && said.contains("no such file"));
}
