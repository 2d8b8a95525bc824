//! The documents: what they link to is there, the commands that they name are commands, and the calls that they show run as they stand.

mod support;

use std::fs;
use std::os::unix::fs::symlink;
use std::path::{Path, PathBuf};
use std::process::{Command, Stdio};

use support::room::Room;

fn root() -> PathBuf {
    Path::new(env!("CARGO_MANIFEST_DIR")).join("../..")
}

/// The repository's documents, each with its folder.
fn documents() -> Vec<(PathBuf, String)> {
    let mut paths =
        ["README.md", "CHANGELOG.md", "LICENSE-NOTE.md", "host/README.md"].map(|name| root().join(name)).to_vec();
    for folder in ["docs", "docs/notes"] {
        let entries = fs::read_dir(root().join(folder)).expect("the folder is there");
        paths.extend(
            entries
                .map(|entry| entry.expect("it can be read").path())
                .filter(|path| path.extension().is_some_and(|e| e == "md")),
        );
    }
    let read = |path: PathBuf| {
        let text = fs::read_to_string(&path).expect("it can be read");
        (path, text)
    };
    paths.into_iter().map(read).collect()
}

/// What stands between a beginning and the next end, each time.
fn between<'a>(text: &'a str, begin: &'a str, end: char) -> impl Iterator<Item = &'a str> {
    text.split(begin).skip(1).filter_map(move |rest| rest.split_once(end).map(|(found, _)| found))
}

#[test]
fn links_lead_somewhere() {
    for (path, text) in documents() {
        let folder = path.parent().expect("a document is in a folder");
        let links = between(&text, "](", ')').chain(between(&text, "src=\"", '"'));
        for link in links.filter(|link| !link.starts_with('#') && !link.starts_with("http")) {
            assert!(folder.join(link).exists(), "{}: {link}", path.display());
        }
        for section in between(&text, "](#", ')') {
            let heading = |line: &str| line.trim_start_matches('#').trim().to_lowercase().replace(' ', "-");
            let found = text.lines().any(|line| line.starts_with('#') && heading(line) == section);
            assert!(found, "{}: #{section}", path.display());
        }
    }
}

#[test]
fn documents_named_in_documents_are_there() {
    for (path, text) in documents() {
        for name in
            between(&text, "docs/", ' ').map(|rest| rest.trim_end_matches(|c: char| !c.is_ascii_alphanumeric() && c != '/'))
        {
            let name = name
                .split(|c: char| !c.is_ascii_alphanumeric() && !"/._-".contains(c))
                .next()
                .expect("a split has a first part");
            assert!(root().join("docs").join(name).exists(), "{}: docs/{name}", path.display());
        }
    }
}

#[test]
fn commands_of_the_documents_are_commands() {
    for (path, text) in documents() {
        for command in between(&text, "robequarry ", ' ').chain(between(&text, "`robequarry ", '`')) {
            let name = command.split_whitespace().next().unwrap_or_default();
            let is_name = !name.is_empty() && name.chars().all(|c| c.is_ascii_lowercase());
            let is_call = text.contains(&format!("`robequarry {name}")) || text.contains(&format!("    robequarry {name} "));
            if is_name && is_call {
                let help = Command::new(env!("CARGO_BIN_EXE_robequarry"))
                    .args([name, "--help"])
                    .output()
                    .expect("cargo has built it");
                assert!(help.status.success(), "{}: robequarry {name}", path.display());
            }
        }
    }
}

/// A folder with what the repository has, in which a call may write. Each document has its own.
fn workplace(document: &str) -> Room {
    let folder = Room::new(&document.replace('/', "-"));
    for name in ["files", "docs", "host", "include"] {
        symlink(root().join(name).canonicalize().expect("it is there"), folder.path().join(name)).expect("it is new");
    }
    folder
}

/// What a call in a shell writes, standard error in its place, and its status.
fn called(call: &str, folder: &Path) -> (String, i32) {
    let program = Path::new(env!("CARGO_BIN_EXE_robequarry")).parent().expect("it is in a folder");
    let path = format!("{}:{}", program.display(), std::env::var("PATH").expect("there is one"));
    let mut command = Command::new("bash");
    command.args(["-c", &format!("{{ {call}\n}} 2>&1")]).env("PATH", path).current_dir(folder).stdin(Stdio::null());
    let output = command.output().expect("there is a shell");
    (String::from_utf8(output.stdout).expect("it is text"), output.status.code().unwrap_or(-1))
}

/// The call at a line's beginning: what follows two spaces is a remark.
fn call_of(line: &str) -> &str {
    line.split("  ").next().unwrap_or(line).trim()
}

/// Whether a call has a name in capitals for what a reader puts in its place.
fn is_pattern(call: &str) -> bool {
    let capital = |word: &str| word.len() > 1 && word.chars().all(|c| c.is_ascii_uppercase());
    call.split(|c: char| !c.is_ascii_alphanumeric()).any(capital) || call.split(' ').any(|word| word == "A" || word == "B")
}

/// Runs the calls of a document: `$ robequarry ...` with what it prints below it, and lines that begin with `robequarry`.
fn run_calls(document: &str) -> usize {
    let text = fs::read_to_string(root().join(document)).expect("it can be read");
    let folder = workplace(document);
    let mut runs = 0;
    let mut lines = text.lines().peekable();
    while let Some(line) = lines.next() {
        let Some(code) = line.strip_prefix("    ") else { continue };
        if let Some(call) = code.strip_prefix("$ ").filter(|call| call.contains("robequarry ")) {
            let mut shown = String::new();
            while let Some(output) = lines.next_if(|next| next.starts_with("    ") && !next.starts_with("    $ ")) {
                shown += &format!("{}\n", &output[4..]);
            }
            assert_eq!(called(call, folder.path()).0, shown, "{document}: {call}");
            runs += 1;
        } else if code.starts_with("robequarry ") && !is_pattern(call_of(code)) {
            let (said, status) = called(call_of(code), folder.path());
            assert!(status == 0 || status == 1, "{document}: {}: {said}", call_of(code));
            runs += 1;
        }
    }
    runs
}

#[test]
fn calls_of_the_documents_run_as_they_stand() {
    assert!(run_calls("docs/PROGRAM.md") > 20);
    run_calls("README.md");
    run_calls("host/README.md");
}

/// The examples in the help of commands are calls of commands.
#[test]
fn examples_in_the_help_are_calls() {
    let help = Command::new(env!("CARGO_BIN_EXE_robequarry")).arg("manual").output().expect("cargo has built it");
    let page = String::from_utf8(help.stdout).expect("it is text").replace("\\-", "-");
    let examples: Vec<&str> = page.lines().filter_map(|line| line.strip_prefix("    robequarry ")).collect();
    assert!(examples.len() > 8);
    for example in examples {
        let name = example.split(' ').next().expect("a split has a first part");
        assert!(page.contains(&format!(".SS robequarry {name}")), "{example}");
    }
}
