//! The main job: the proved program `fittings` tells a read and a write that fail, and `./run` ends with a status that says what happened.

mod support;

use std::fs::{self, File};
use std::path::{Path, PathBuf};
use std::process::{Command, Output, Stdio};

use support::call::{err, out, status};
use support::xml;

fn root() -> PathBuf {
    Path::new(env!("CARGO_MANIFEST_DIR")).join("../..")
}

fn fittings() -> Command {
    let program = root().join("crates/fittings/out/fittings");
    assert!(program.is_file(), "crates/fittings/out/fittings is missing: run `rt run` in crates/fittings first");
    Command::new(program)
}

/// `./run` with an `rt` that only says that it has proved what is linked already, or with one that fails.
fn run(arguments: &[&str], proves: bool) -> Output {
    let folder = format!("{}/tests/toolchains/{}", env!("CARGO_MANIFEST_DIR"), if proves { "proves" } else { "fails" });
    let paths = format!("{folder}:{}", std::env::var("PATH").expect("there is one"));
    let mut command = Command::new(root().join("run"));
    command.args(arguments).env("PATH", paths).stdin(Stdio::null()).output().expect("bash is there")
}

#[test]
fn a_read_that_fails_is_told() {
    let folder = File::open(root()).expect("a folder can be opened, and not be read");
    let told = fittings().stdin(folder).output().expect("it runs");
    assert_eq!((out(&told).as_str(), err(&told).as_str()), ("", "fittings: the input cannot be read\n"));
}

#[test]
fn a_write_that_fails_is_told() {
    let full = File::options().write(true).open("/dev/full").expect("Linux has it");
    let input = File::open(root().join("files/h3.fit")).expect("it ships");
    let child = fittings().stdin(input).stdout(full).stderr(Stdio::piped()).spawn().expect("it runs");
    assert_eq!(err(&child.wait_with_output().expect("it ends")), "fittings: the listing cannot be written\n");
}

#[test]
fn an_input_without_end_is_too_large() {
    let zeros = File::open("/dev/zero").expect("Linux has it");
    let listed = fittings().stdin(zeros).output().expect("it runs");
    assert_eq!((out(&listed).as_str(), err(&listed).as_str()), ("0 25 65536\n", ""));
}

/// How many crates of crates.txt a crate rests on, itself among them.
fn crates_of(program: &str) -> usize {
    let lines = fs::read_to_string(root().join("crates.txt")).expect("it ships");
    let (mut found, mut at) = (vec![program], 0);
    while let Some(&name) = found.get(at) {
        let uses = lines.lines().find_map(|line| line.strip_prefix(name)?.strip_prefix(':')).unwrap_or("");
        for used in uses.split_whitespace().filter(|used| lines.lines().any(|line| line.starts_with(&format!("{used}:")))) {
            if !found.contains(&used) {
                found.push(used);
            }
        }
        at += 1;
    }
    found.len()
}

/// Every shipped file: the listing on standard output and nothing else there, and a status by its last line.
#[test]
fn run_lists_a_file() {
    let (mut faults, crates) = (0, crates_of("fittings"));
    for entry in fs::read_dir(root().join("files")).expect("the files ship") {
        let fitting = entry.expect("it is listed").path();
        if fitting.extension().is_none_or(|extension| extension != "fit") {
            continue;
        }
        let lines = fs::read_to_string(fitting.with_extension("lines")).expect("its lines stand beside it");
        let listed = run(&[fitting.to_str().expect("its name is text")], true);
        let number = lines.lines().last().and_then(|line| line.split(' ').nth(1)).unwrap_or("0");
        let fault = ["23", "24", "25"].contains(&number);
        assert_eq!((out(&listed), status(&listed)), (lines, i32::from(fault)), "{}", fitting.display());
        assert!(err(&listed).starts_with("run: 1 of 2: "));
        assert!(err(&listed).contains(&format!("\n[1 of {crates}] rt: fitting_listing proved\n")), "{}", err(&listed));
        assert!(err(&listed).contains("\nrun: 2 of 2: ") && err(&listed).contains("\nrun: in words: "));
        faults += usize::from(fault);
    }
    assert!(faults > 5);
    let shipped = fs::read_to_string(root().join("files/specimens.lines")).expect("it ships");
    let listed = run(&[], true);
    assert_eq!(out(&listed), shipped);
    // It ends with a sentence in words, and with a picture that is well-formed.
    let end = "run: in words: 20 outlines: 9 taken, 11 refused; the first refused one is record 5, by 9: a dent, so a cell is missing\n\
               run: a picture of the first outlines, for a browser: target/run.svg\n";
    assert!(err(&listed).ends_with(end), "{}", err(&listed));
    let svg = fs::read_to_string(root().join("target/run.svg")).expect("it was written");
    let picture = xml::parse(&format!("<?xml version=\"1.0\" encoding=\"UTF-8\"?>{svg}"));
    assert_eq!((picture.of_class("taken").len(), picture.of_class("refused").len()), (9, 11));
}

#[test]
fn run_refuses_what_is_no_call() {
    for arguments in [&[""][..], &["--help"], &["-h"], &["a", "b"]] {
        let refused = run(arguments, true);
        assert_eq!((out(&refused).as_str(), status(&refused)), ("", 2), "{arguments:?}");
        assert!(err(&refused).starts_with("usage: ./run [FILE] ") && err(&refused).lines().count() == 1);
    }
    for name in ["no/such/file", "."] {
        let refused = run(&[name], true);
        assert_eq!((err(&refused), status(&refused)), (format!("run: '{name}' is no file that can be read\n"), 2));
    }
}

#[test]
fn run_says_what_failed() {
    let unproved = run(&[], false);
    assert!(err(&unproved).ends_with("run: 'fittings' is not proved\n"), "{}", err(&unproved));
    assert_eq!((out(&unproved).as_str(), status(&unproved)), ("", 3));
}
