//! The names and sentences of every language are those of the tables in `texts/`.

use std::path::Path;
use std::process::Command;

use robequarry::texts::{REFUSALS, WORDS};

/// Every file that `texts/make` writes is as it would write it.
#[test]
fn written_from_the_tables() {
    let make = Path::new(env!("CARGO_MANIFEST_DIR")).join("../texts/make");
    match Command::new("python3").arg(make).arg("--check").output() {
        Ok(output) => assert!(output.status.success(), "{}", String::from_utf8_lossy(&output.stdout)),
        Err(error) => println!("python3: {error}: not tried"),
    }
}

/// A sentence begins with a capital, ends with a full stop and fits a line.
#[test]
fn sentences() {
    for (number, name, sentence) in REFUSALS.into_iter().chain(WORDS) {
        assert!(sentence.starts_with(char::is_uppercase) && sentence.ends_with('.'), "{number} {name}");
        assert!(sentence.len() <= 120 && !sentence.contains("  "), "{number} {name}");
        assert!(name.bytes().all(|byte| byte.is_ascii_uppercase() || byte == b'_'), "{number} {name}");
    }
}
