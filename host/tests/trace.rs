//! docs/TRACE.md leads from each clause of the contract to its definition, theorem, must-fail edit and test, and from each hazard to its
//! duties. `docs/trace` writes it, and finds empty cells and names that do not exist.

use std::path::Path;
use std::process::Command;

/// The page is as `docs/trace` would write it.
#[test]
fn written_from_the_documents() {
    let trace = Path::new(env!("CARGO_MANIFEST_DIR")).join("../docs/trace");
    match Command::new("python3").arg(trace).arg("--check").output() {
        Ok(output) => assert!(output.status.success(), "{}", String::from_utf8_lossy(&output.stderr)),
        Err(error) => println!("python3: {error}: not tried"),
    }
}
