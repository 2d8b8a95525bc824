//! Links the proved archive of the target (`build/archive.rs` says where it is), and names it by its SHA-256.

#[path = "build/archive.rs"]
mod archive;
#[path = "build/sha256.rs"]
mod sha256;

use std::env;
use std::fs;
use std::path::Path;
use std::process;

fn main() {
    let host = env::var_os("CARGO_MANIFEST_DIR").expect("cargo names the crate's folder");
    let target = env::var("TARGET").expect("cargo names the target");
    let named = env::var_os(archive::VARIABLE).filter(|named| !named.is_empty());
    println!("cargo:rerun-if-env-changed={}", archive::VARIABLE);
    println!("cargo:rerun-if-changed=build.rs");
    println!("cargo:rerun-if-changed=build");
    let version = env::var("CARGO_PKG_VERSION").expect("cargo names the crate's version");
    let folder = archive::folder(&target, named.as_deref().map(Path::new), &Path::new(&host).join(".."))
        .and_then(|folder| fs::canonicalize(&folder).map_err(|error| format!("{}: {error}", folder.display())))
        .and_then(|folder| archive::same_version(&folder, &version).map(|()| folder))
        .unwrap_or_else(|told| {
            eprintln!("{told}");
            process::exit(1);
        });
    if let Some(header) = archive::header(&folder) {
        println!("cargo:rerun-if-changed={}", header.display());
    }
    let archive = folder.join(archive::ARCHIVE);
    println!("cargo:rerun-if-changed={}", archive.display());
    let bytes = fs::read(&archive).expect("the archive can be read");
    println!("cargo:rustc-env=ROBEQUARRY_ARCHIVE={}", sha256::hexadecimal(&bytes));
    println!("cargo:rustc-link-search=native={}", folder.display());
    println!("cargo:rustc-link-lib=static=robequarry");
}
