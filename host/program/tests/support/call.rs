//! The built program, called as a user calls it.

use std::fs;
use std::io::Write;
use std::path::PathBuf;
use std::process::{Command, Output, Stdio};

pub const PROGRAM: &str = env!("CARGO_BIN_EXE_robequarry");

pub const SPECIMENS: &str = concat!(env!("CARGO_MANIFEST_DIR"), "/specimens.txt");

pub const PLUS: [u8; 12] = [1, 0, 1, 0, 3, 0, 3, 2, 3, 2, 1, 2];
pub const DENTED: [u8; 12] = [1, 1, 1, 0, 3, 3, 0, 0, 3, 2, 2, 2];

pub fn program(arguments: &[&str]) -> Output {
    Command::new(PROGRAM).args(arguments).stdin(Stdio::null()).output().expect("cargo has built it")
}

/// The program with these bytes on its standard input.
pub fn fed(arguments: &[&str], input: &[u8]) -> Output {
    let mut command = Command::new(PROGRAM);
    command.args(arguments).stdin(Stdio::piped()).stdout(Stdio::piped()).stderr(Stdio::piped());
    let mut child = command.spawn().expect("cargo has built it");
    let mut stdin = child.stdin.take().expect("it is piped");
    let input = input.to_vec();
    // What ends early leaves some of it unread.
    let writer = std::thread::spawn(move || drop(stdin.write_all(&input)));
    let output = child.wait_with_output().expect("it ends");
    writer.join().expect("it only writes");
    output
}

pub fn status(output: &Output) -> i32 {
    output.status.code().expect("it ends by itself")
}

pub fn out(output: &Output) -> String {
    String::from_utf8(output.stdout.clone()).expect("the output is text")
}

pub fn err(output: &Output) -> String {
    String::from_utf8(output.stderr.clone()).expect("the output is text")
}

/// A path for a test, which is text.
pub fn path(name: &str) -> String {
    let path = PathBuf::from(env!("CARGO_TARGET_TMPDIR")).join(name);
    path.to_str().expect("the folder's name is text").to_string()
}

/// A file for a test, with these bytes. Its folders are made.
pub fn file(name: &str, bytes: &[u8]) -> String {
    let path = path(name);
    let folder = std::path::Path::new(&path).parent().expect("a file is in a folder");
    fs::create_dir_all(folder).expect("the folder for tests can be written");
    fs::write(&path, bytes).expect("the folder for tests can be written");
    path
}

/// The record of a fitting file.
pub fn record(start: (u8, u8), letters: &[u8]) -> Vec<u8> {
    let count = (letters.len() as u16).to_le_bytes();
    [&[0x4B, 0x4F, start.0, start.1, count[0], count[1]], letters].concat()
}
