//! Without the feature `std` the crate needs no more than `core` and `alloc`.

use std::path::Path;
use std::process::Command;

/// A program with an allocator and a panic handler of its own is linked, which no program with std is, and its answers are right.
#[test]
fn a_program_without_std() {
    let folder = Path::new(env!("CARGO_MANIFEST_DIR")).join("bare");
    let target = Path::new(env!("CARGO_TARGET_TMPDIR")).join("bare");
    let mut cargo = Command::new(env!("CARGO"));
    cargo.args(["build", "--offline", "--quiet", "--target-dir"]).arg(&target).current_dir(folder);
    // What is built for the tests says nothing of how this is built.
    cargo.env_remove("CARGO_ENCODED_RUSTFLAGS").env_remove("RUSTFLAGS").env_remove("CARGO_BUILD_TARGET");
    let built = cargo.output().expect("cargo runs the tests");
    assert!(built.status.success(), "{}", String::from_utf8_lossy(&built.stderr));
    let status = Command::new(target.join("debug/bare")).status().expect("it was just linked");
    assert_eq!(status.code(), Some(0));
}
