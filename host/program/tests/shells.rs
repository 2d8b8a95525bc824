//! Completions and the manual page name every command and every option, and the shells take them.

mod support;

use std::collections::BTreeSet;
use std::io::Write;
use std::process::{Command, Stdio};

use support::call::{err, out, program, status};

/// The commands of the help text, each with the long options of its own.
fn commands() -> Vec<(String, BTreeSet<String>)> {
    let help = out(&program(&["--help"]));
    let lines = help.lines().skip_while(|line| *line != "Commands:").skip(1).take_while(|line| !line.is_empty());
    lines
        .map(|line| {
            let name = line.split_whitespace().next().expect("a command has a name").to_string();
            let text = out(&program(&[&name, "--help"]));
            let options = text
                .lines()
                .filter(|line| line.starts_with("  -"))
                .filter_map(|line| line.split([' ', ',']).find(|word| word.starts_with("--")).map(str::to_string));
            let options = options.collect();
            (name, options)
        })
        .collect()
}

fn completions(shell: &str) -> String {
    let written = program(&["completions", shell]);
    assert_eq!((status(&written), err(&written).as_str()), (0, ""));
    out(&written)
}

/// What a shell says of a script on its standard input; none where the shell is not installed.
fn tried(shell: &str, arguments: &[&str], script: &str) -> Option<(String, bool)> {
    let mut command = Command::new(shell);
    command.args(arguments).stdin(Stdio::piped()).stdout(Stdio::piped()).stderr(Stdio::piped());
    let mut child = command.spawn().ok()?;
    child.stdin.take().expect("it is piped").write_all(script.as_bytes()).expect("it is read");
    let output = child.wait_with_output().expect("it ends");
    Some((out(&output) + &err(&output), output.status.success()))
}

#[test]
fn every_command_and_option_is_completed() {
    let commands = commands();
    assert!(commands.len() > 12);
    for shell in ["bash", "zsh", "fish"] {
        let script = completions(shell);
        for (name, options) in &commands {
            assert!(script.contains(name.as_str()), "{shell}: {name}");
            for option in options {
                let option = if shell == "fish" { format!("-l {}", &option[2..]) } else { option.clone() };
                assert!(script.contains(&option), "{shell}: {name} {option}");
            }
        }
    }
    let wrong = program(&["completions", "tcsh"]);
    assert!(err(&wrong).starts_with("robequarry: the shells are bash, zsh and fish, not `tcsh`\n"));
}

#[test]
fn the_shells_take_them() {
    let bash = tried("bash", &["-n"], &completions("bash")).expect("bash is there");
    assert_eq!(bash, (String::new(), true));
    for shell in ["zsh", "fish"] {
        if let Some(said) = tried(shell, &["-n"], &completions(shell)) {
            assert_eq!(said, (String::new(), true), "{shell}");
        }
    }
}

#[test]
fn bash_completes_words() {
    for (words, expected) in [
        ("robequarry ch", "check"),
        ("robequarry check --form", "--format"),
        ("robequarry check --format j", "json"),
        ("robequarry convert --to f", "fitting"),
        ("robequarry completions z", "zsh"),
        ("robequarry check --co", ""),
    ] {
        let count = words.split(' ').count() - 1;
        let script = format!(
            "{}\nCOMP_WORDS=({words}); COMP_CWORD={count}; _robequarry; echo \"${{COMPREPLY[*]}}\"\n",
            completions("bash")
        );
        assert_eq!(tried("bash", &[], &script).expect("bash is there"), (format!("{expected}\n"), true), "{words}");
    }
}

#[test]
fn the_manual_page_has_everything() {
    let written = program(&["manual"]);
    let page = out(&written);
    assert!(page.starts_with(".TH ROBEQUARRY 1 ") && status(&written) == 0);
    for (name, options) in commands() {
        assert!(page.contains(&format!(".SS robequarry {name}")), "{name}");
        for option in options.iter().filter(|option| *option != "--help") {
            assert!(page.contains(&option.replace('-', "\\-")), "{name} {option}");
        }
    }
    if let Some((said, _)) = tried("groff", &["-man", "-Tutf8", "-ww", "-z"], &page) {
        assert_eq!(said, "");
    }
    assert_eq!(status(&program(&["manual", "x"])), 2);
}

#[test]
fn the_version_names_the_library() {
    let said = out(&program(&["--version"]));
    let expected =
        format!("robequarry {0}\nlibrary {0}, librobequarry.a SHA-256 {1}\n", robequarry::VERSION, robequarry::ARCHIVE);
    assert_eq!(said, expected);
    assert_eq!(out(&program(&["-V"])), said);
}
