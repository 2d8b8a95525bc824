//! The program `fittings` (contract 11): the files that ship with their lines, and files drawn at random against the reference.

use std::fs;
use std::io::Write;
use std::path::{Path, PathBuf};
use std::process::{Command, Stdio};
use std::thread;

use robequarry::limits::LONGEST_FILE;
use robequarry_checks::draw::Shape;
use robequarry_checks::random::Random;
use robequarry_checks::reference::files::listing;
use robequarry_checks::Outline;

const FILES: usize = 300;

fn root() -> PathBuf {
    Path::new(env!("CARGO_MANIFEST_DIR")).join("../..")
}

/// What the program writes, with a file as its standard input.
fn fittings(file: &[u8]) -> String {
    let program = root().join("crates/fittings/out/fittings");
    assert!(program.is_file(), "crates/fittings/out/fittings is missing: run `rt run` in crates/fittings first");
    let mut child = Command::new(program).stdin(Stdio::piped()).stdout(Stdio::piped()).spawn().expect("it is there");
    let mut input = child.stdin.take().expect("it was piped");
    let bytes = file.to_vec();
    // The program reads no further than the first byte too many.
    let writer = thread::spawn(move || drop(input.write_all(&bytes)));
    let output = child.wait_with_output().expect("it ends");
    writer.join().expect("it only writes");
    assert!(output.status.success());
    String::from_utf8(output.stdout).expect("digits, spaces and line feeds")
}

/// A record of an outline whose start fits two bytes.
fn record(outline: &Outline) -> Vec<u8> {
    let count = u16::try_from(outline.letters.len()).expect("a drawing has fewer letters");
    let [low, high] = count.to_le_bytes();
    let mut bytes = vec![0x4B, 0x4F, outline.start.col as u8, outline.start.row as u8, low, high];
    bytes.extend(&outline.letters);
    bytes
}

#[test]
fn shipped_files() {
    let mut seen = 0;
    for entry in fs::read_dir(root().join("files")).expect("the files ship") {
        let path = entry.expect("it is listed").path();
        if path.extension().is_some_and(|extension| extension == "fit") {
            let file = fs::read(&path).expect("it is a file");
            let lines = fs::read_to_string(path.with_extension("lines")).expect("its lines stand beside it");
            assert_eq!(fittings(&file), lines, "{}", path.display());
            assert_eq!(listing(&file), lines, "{}", path.display());
            seen += 1;
        }
    }
    assert_eq!(seen, 18);
}

/// As many lines as a file can have, and the longest ones.
#[test]
fn most_lines() {
    let empty: Vec<u8> = [0x4B, 0x4F, 0, 0, 0, 0].repeat(LONGEST_FILE / 6);
    for end in [&b""[..], b"K", b"KO", b"KO\0\0", b"\0\0\0\0", b"KO\0\0\0"] {
        let file = [&empty[..], end].concat();
        assert_eq!(fittings(&file), listing(&file), "{end:?}");
    }
}

/// Records of drawings, whole, cut, or with a byte changed.
#[test]
fn drawn_files() {
    let mut random = Random::new(14);
    for _ in 0..FILES {
        let mut file = Vec::new();
        for _ in 0..random.below(8) {
            let shape = Shape::ALL[random.below(Shape::ALL.len())];
            file.extend(record(&shape.draw(&mut random)));
        }
        if random.once_in(2) {
            file.truncate(random.below(file.len() + 1));
        }
        if random.once_in(3) && !file.is_empty() {
            let at = random.below(file.len());
            file[at] = random.any() as u8;
        }
        assert_eq!(fittings(&file), listing(&file), "{file:?}");
    }
}
