//! How texts are decoded: the files that the page reads too, each with what is read from it.

mod support;

use std::fs;
use std::path::{Path, PathBuf};

use robequarry::text::{self, Escaped};
use robequarry_program::input::{Fault, Pieces};
use support::call::{err, fed, file, out, program, status};

fn texts() -> Vec<PathBuf> {
    let folder = Path::new(env!("CARGO_MANIFEST_DIR")).join("../../files/texts");
    let paths = fs::read_dir(folder).expect("the texts ship").map(|entry| entry.expect("it is listed").path());
    let mut texts: Vec<PathBuf> = paths.filter(|path| path.extension().is_some_and(|ending| ending == "txt")).collect();
    texts.sort();
    texts
}

/// What is read of a source, as the files beside the texts have it.
fn read(source: impl std::io::Read) -> String {
    let mut lines = String::new();
    for piece in Pieces::of(source, None) {
        let piece = match piece {
            Ok(piece) => piece,
            Err(fault) => return lines + &told(&fault),
        };
        for entry in piece.entries() {
            match entry {
                Ok((outline, name)) => {
                    let name = if name.is_empty() { String::new() } else { format!("  # {}", Escaped(&name)) };
                    lines += &format!("{}{name}\n", text::line(&outline).expect("it was digits"));
                }
                Err(fault) => return lines + &told(&fault),
            }
        }
    }
    lines
}

fn told(fault: &Fault) -> String {
    fault.line().map_or("! neither\n".to_string(), |line| format!("! line {line}\n"))
}

/// A source that gives so many bytes at a time.
struct Slowly<'a>(&'a [u8], usize);

impl std::io::Read for Slowly<'_> {
    fn read(&mut self, buffer: &mut [u8]) -> std::io::Result<usize> {
        let count = self.1.min(self.0.len()).min(buffer.len());
        buffer[..count].copy_from_slice(&self.0[..count]);
        self.0 = &self.0[count..];
        Ok(count)
    }
}

#[test]
fn every_text_is_read_as_it_says() {
    let texts = texts();
    assert!(texts.len() > 15);
    for path in texts {
        let bytes = fs::read(&path).expect("it ships");
        let expected = fs::read_to_string(path.with_extension("read")).expect("it stands beside its text");
        for step in [1, 2, 3, 7, 1 << 16] {
            assert_eq!(read(Slowly(&bytes, step)), expected, "{} {step}", path.display());
        }
        // What is written is read back as it was.
        assert_eq!(
            read(expected.replace("! ", "#").as_bytes()),
            expected.lines().filter(|l| !l.starts_with('!')).map(|l| format!("{l}\n")).collect::<String>()
        );
    }
}

/// Lists of edges and tables are decoded by the same rule.
#[test]
fn lists_and_tables_too() {
    let utf16 =
        |text: &str| [&b"\xFF\xFE"[..], &text.encode_utf16().flat_map(u16::to_le_bytes).collect::<Vec<u8>>()].concat();
    let outlines = file("decoding/knie.txt", "0 1 101030323212 # Knie größer\r".as_bytes());
    let agrees = "1 outline: 1 agree, 0 differ, 0 unsafe, 0 not compared\n";
    for (name, bytes) in [
        ("list.edges", "# list\r0 1  1 1  1 -1  -1 -1  -1 1 # Knie größer\r".as_bytes().to_vec()),
        ("latin1.edges", b"0 1  1 1  1 -1  -1 -1  -1 1 # Knie gr\xF6\xDFer\r\n".to_vec()),
        ("utf16.edges", utf16("0 1  1 1  1 -1  -1 -1  -1 1 # Knie größer\r\n")),
        ("utf16.csv", utf16("name;anchor;edges\rKnie größer;0 1;1 1 1 -1 -1 -1 -1 1\r")),
        ("latin1.csv", b"name,anchor,edges\r\nKnie gr\xF6\xDFer,0 1,1 1 1 -1 -1 -1 -1 1\r\n".to_vec()),
    ] {
        let audited = program(&["audit", &file(&format!("decoding/{name}"), &bytes), &outlines, "--differences"]);
        assert_eq!((out(&audited).as_str(), err(&audited).as_str(), status(&audited)), (agrees, "", 0), "{name}");
    }
}

/// A line that ends in CR is answered at once, though an LF may follow.
#[test]
fn standard_input_with_any_ends() {
    let checked = fed(&["check", "-"], b"0 0 1032\r1 0 1032\r\n2 0 1032");
    assert!(out(&checked).contains("outline 2: taken - no edge, anchor (2, 0)\n3 outlines in 1 file"), "{}", out(&checked));
}
