//! A command of `examples/` in a folder of its own, with a program in the place of `rt`: what it
//! prints where, when it builds, and that it leaves no file.

use std::fs;
use std::os::unix::fs::PermissionsExt;
use std::path::{Path, PathBuf};
use std::process::{Command, Output};
use std::time::{Duration, SystemTime};

/// In the place of `rt` where something is not proved.
const FAILING_RT: &str = "#!/bin/sh
echo 'rt: bits NOT PROVED' >&2
exit 1
";

/// What `rt` says.
const PROVED: &str = "rt: bits proved (1 s)\n";

/// A command that builds a program and runs it.
pub struct Tested {
    /// Its name in `examples/`.
    pub command: &'static str,
    /// The program that it builds.
    pub program: &'static str,
    /// What `rt` writes in the place of the program, after the first line.
    pub body: &'static str,
    /// Arguments of the command, and what it prints with them.
    pub arguments: &'static [&'static str],
    pub printed: &'static str,
}

impl Tested {
    /// In the place of `rt`: says what it proves, and writes the program.
    fn rt(&self) -> String {
        let (program, body) = (self.program, self.body);
        format!(
            "#!/bin/sh
[ \"$(basename \"$PWD\") $*\" = '{program} run' ] || exit 2
echo 'rt: bits proved (1 s)' >&2
mkdir -p out
cat >out/{program} <<'END'
#!/bin/sh
{body}
END
chmod +x out/{program}
echo 'what the program prints'
"
        )
    }

    /// Asserts that it shows what is proved the first time alone, and leaves no file.
    pub fn assert_shows_once(&self) {
        let folder = Folder::new(self, "once");
        let names = folder.names();
        let first = folder.run(self.arguments);
        assert_eq!(parts(&first), (Some(0), self.printed, PROVED));
        let again = folder.run(self.arguments);
        assert_eq!(parts(&again), (Some(0), self.printed, ""));
        let mut names_wanted = names;
        names_wanted.push("target".to_string());
        names_wanted.sort();
        assert_eq!(folder.names(), names_wanted);
    }

    /// Asserts that it builds again where a source file is newer than the program.
    pub fn assert_builds_again(&self) {
        let folder = Folder::new(self, "newer");
        folder.run(self.arguments);
        let program = format!("target/bin/{}", self.program);
        let main = format!("crates/{}/src/main.rt", self.program);
        let earlier = SystemTime::now() - Duration::from_secs(3_600);
        let said = || parts(&folder.run(self.arguments)).2.to_string();
        for source in ["crates/bits/src/lib.rt", "crates.txt"] {
            folder.set_time(&program, earlier);
            folder.set_time("crates/bits/src/lib.rt", earlier);
            folder.set_time("crates.txt", earlier);
            folder.set_time(&main, earlier);
            assert_eq!(said(), "");
            folder.set_time(source, SystemTime::now() - Duration::from_secs(60));
            assert_eq!(said(), PROVED);
            assert_eq!(said(), "");
        }
    }

    /// Asserts that it fails where something is not proved.
    pub fn assert_fails(&self) {
        let folder = Folder::new(self, "not_proved");
        folder.write_rt(FAILING_RT);
        let given = folder.run(self.arguments);
        assert_eq!(parts(&given), (Some(1), "", "rt: bits NOT PROVED\n"));
    }
}

/// A folder with the command, a source file of a crate, `rt`, and a file.
pub struct Folder {
    path: PathBuf,
    command: &'static str,
}

impl Folder {
    /// The folder for a test of this name.
    pub fn new(tested: &Tested, name: &str) -> Self {
        let name = format!("{}_{name}", tested.program);
        let path = Path::new(env!("CARGO_TARGET_TMPDIR")).join(name);
        let _ = fs::remove_dir_all(&path);
        let command = tested.command;
        let folder = Folder { path, command };
        let examples = Path::new(env!("CARGO_MANIFEST_DIR")).join("../examples");
        let text = fs::read_to_string(examples.join(command));
        let text = text.unwrap_or_else(|error| panic!("examples/{command}: {error}"));
        folder.write(&format!("examples/{command}"), &text);
        folder.write("crates/bits/src/lib.rt", "");
        folder.write(&format!("crates/{}/src/main.rt", tested.program), "");
        folder.write("crates.txt", "bits:\n");
        folder.write("a file", "text of the file\n");
        folder.write_rt(&tested.rt());
        folder
    }

    fn write(&self, name: &str, text: &str) {
        let path = self.path.join(name);
        fs::create_dir_all(path.parent().expect("a folder")).expect("made");
        fs::write(path, text).expect("written");
    }

    fn write_rt(&self, text: &str) {
        self.write("kit/rt", text);
        let mode = fs::Permissions::from_mode(0o755);
        fs::set_permissions(self.path.join("kit/rt"), mode).expect("set");
    }

    /// Sets when a file was last changed.
    fn set_time(&self, name: &str, time: SystemTime) {
        let file = fs::File::options().append(true).open(self.path.join(name));
        file.and_then(|file| file.set_modified(time)).expect("set");
    }

    /// Runs the command within `examples`, so that a file's name counts from there.
    pub fn run(&self, arguments: &[&str]) -> Output {
        let others = std::env::var("PATH").expect("a path");
        let kit = self.path.join("kit");
        Command::new("sh")
            .arg(self.command)
            .args(arguments)
            .env("PATH", format!("{}:{others}", kit.display()))
            .current_dir(self.path.join("examples"))
            .output()
            .expect("sh")
    }

    /// The names in the folder, sorted.
    fn names(&self) -> Vec<String> {
        let entries = fs::read_dir(&self.path).expect("a folder");
        let name = |entry: fs::DirEntry| entry.file_name().into_string().expect("text");
        let mut names: Vec<String> = entries.map(|entry| name(entry.expect("read"))).collect();
        names.sort();
        names
    }
}

/// Status, standard output and standard error.
pub fn parts(output: &Output) -> (Option<i32>, &str, &str) {
    let text = |bytes| std::str::from_utf8(bytes).expect("text");
    (
        output.status.code(),
        text(&output.stdout),
        text(&output.stderr),
    )
}
