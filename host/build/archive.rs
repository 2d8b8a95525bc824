//! Which archive a build links.

use std::fs;
use std::path::{Path, PathBuf};

/// The library's file.
pub const ARCHIVE: &str = "librobequarry.a";

/// The environment variable that names a folder with an archive.
pub const VARIABLE: &str = "ROBEQUARRY_LIB_DIR";

/// Targets of Rust, and the target of `./build` whose archive each links. A program for a Cortex-M7 links the archive for a Cortex-M4F,
/// unless it names the folder of the other.
pub const TARGETS: [(&str, &str); 6] = [
    ("x86_64-unknown-linux-gnu", "x86_64-linux"),
    ("aarch64-unknown-linux-gnu", "aarch64-linux"),
    ("thumbv7em-none-eabihf", "cortex-m4f"),
    ("thumbv6m-none-eabi", "cortex-m0plus"),
    ("thumbv8m.main-none-eabihf", "cortex-m33"),
    ("riscv32imac-unknown-none-elf", "riscv32imac"),
];

/// The folder of the archive for a target of Rust: the one that the variable names, else the one in which `rt lib` or `./build` has written
/// it. Where there is none, what to do.
pub fn folder(target: &str, named: Option<&Path>, root: &Path) -> Result<PathBuf, String> {
    if let Some(named) = named {
        return match named.join(ARCHIVE).is_file() {
            true => Ok(named.to_path_buf()),
            false => Err(format!("{VARIABLE} is {}, and there is no {ARCHIVE} in that folder.", named.display())),
        };
    }
    let Some((_, name)) = TARGETS.iter().find(|(known, _)| *known == target) else {
        return Err(format!("./build makes no archive for {target}. Set {VARIABLE} to a folder that has {ARCHIVE} for it."));
    };
    // `rt lib` writes the archive for the machine on which it runs.
    let built = root.join("target").join(name);
    let (folders, command) = match *name {
        "x86_64-linux" => (vec![root.join("crates/robequarry/out"), built], "cd crates/robequarry && rt lib".to_string()),
        _ => (vec![built], format!("./build {name}")),
    };
    folders.into_iter().find(|folder| folder.join(ARCHIVE).is_file()).ok_or_else(|| {
        format!(
            "The archive for {target} is missing. Run `{command}` at the repository's root first: it proves the library \
             and writes the archive. Or set {VARIABLE} to a folder that has {ARCHIVE}."
        )
    })
}

/// The header that comes with an archive: of this repository, or below the prefix at which both were installed.
pub fn header(folder: &Path) -> Option<PathBuf> {
    folder.ancestors().skip(1).take(3).map(|above| above.join("include/robequarry.h")).find(|header| header.is_file())
}

/// Holds the version of that header to the crate's. Without a header there is nothing to compare.
pub fn same_version(folder: &Path, crate_version: &str) -> Result<(), String> {
    let Some(header) = header(folder) else {
        return Ok(());
    };
    let text = fs::read_to_string(&header).map_err(|error| format!("{}: {error}", header.display()))?;
    let version = text.lines().find_map(|line| line.strip_prefix("#define RQ_VERSION \"")?.strip_suffix('"'));
    match version {
        Some(version) if version == crate_version => Ok(()),
        _ => Err(format!(
            "The crate robequarry {crate_version} links the archive of its own version, and {} is of {}.",
            header.display(),
            version.unwrap_or("none")
        )),
    }
}
