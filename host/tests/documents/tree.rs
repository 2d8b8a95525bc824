//! What the repository has: files, definitions, functions, must-fail edits, the header's names.

use std::collections::{BTreeMap, BTreeSet};
use std::fs;
use std::path::{Path, PathBuf};

pub fn root() -> PathBuf {
    Path::new(env!("CARGO_MANIFEST_DIR")).join("..")
}

pub fn read(path: &str) -> String {
    fs::read_to_string(root().join(path)).unwrap_or_else(|why| panic!("{path}: {why}"))
}

/// Names by the file that defines them; a file by its path from the root.
type ByFile = BTreeMap<String, BTreeSet<String>>;

pub struct Tree {
    pub files: BTreeSet<String>,
    /// Of `.antt` files: definitions, theorems, records and their fields.
    pub definitions: ByFile,
    /// Of `.rt` files: functions, structs, enums and their variants, constants.
    pub code: ByFile,
    /// The same of the host's `.rs` files.
    pub host: ByFile,
    pub header: BTreeSet<String>,
}

/// Every file below a folder, build output and history left out.
fn files_below(folder: &Path, above: &str, found: &mut BTreeSet<String>) {
    for entry in fs::read_dir(folder).expect("the folder can be read") {
        let entry = entry.expect("the entry can be read");
        let name = entry.file_name().to_string_lossy().into_owned();
        let path = format!("{above}{name}");
        if entry.file_type().expect("it has a type").is_dir() {
            if !["target", "out", ".git", "node_modules", "__pycache__"].contains(&name.as_str()) {
                files_below(&entry.path(), &format!("{path}/"), found);
            }
        } else {
            found.insert(path);
        }
    }
}

/// The name that a line of an `.antt` file defines: `name : ..`, perhaps behind words such as `pub`, or `record Name ..`.
fn defined_in_proof(line: &str) -> Vec<String> {
    let mut words = line.split_whitespace().peekable();
    let mut sure = false;
    while let Some(word) = words.peek() {
        match *word {
            "pub" | "abbrev" | "unfoldable" | "opaque" | "|" => {}
            "record" | "data" => sure = true,
            _ => break,
        }
        words.next();
    }
    let rest: Vec<&str> = words.collect();
    if sure {
        return rest.first().map(|name| vec![name.to_string()]).unwrap_or_default();
    }
    match rest.iter().position(|word| *word == ":") {
        Some(end) if end > 0 && rest[..end].iter().all(|word| is_name(word)) => {
            rest[..end].iter().map(|w| w.to_string()).collect()
        }
        _ => Vec::new(),
    }
}

/// The names that a line of Rattle or Rust defines.
fn defined_in_code(line: &str) -> Vec<String> {
    let words: Vec<&str> = line.split(|c: char| !(c.is_alphanumeric() || c == '_')).filter(|w| !w.is_empty()).collect();
    let keyword = |word: &str| ["fn", "struct", "enum", "const", "mod", "type", "trait", "static"].contains(&word);
    if let Some(at) = words.iter().position(|word| keyword(word)) {
        return words.get(at + 1).map(|name| vec![name.to_string()]).unwrap_or_default();
    }
    let variant = line.trim_start().starts_with(|c: char| c.is_ascii_uppercase());
    words.first().filter(|_| variant).map(|name| vec![name.to_string()]).unwrap_or_default()
}

fn index(files: &BTreeSet<String>, ending: &str, defined: fn(&str) -> Vec<String>) -> ByFile {
    let mut by_file = ByFile::new();
    for path in files.iter().filter(|path| path.ends_with(ending)) {
        let text = read(path);
        by_file.insert(path.clone(), text.lines().flat_map(defined).collect());
    }
    by_file
}

/// The header's names: every word of it that is not in a comment.
fn header_names() -> BTreeSet<String> {
    let text = read("include/robequarry.h");
    let code: String =
        text.split("/*").flat_map(|part| part.split_once("*/").map_or(Some(part), |(_, code)| Some(code))).collect();
    code.split(|c: char| !(c.is_ascii_alphanumeric() || c == '_')).map(str::to_string).collect()
}

pub fn is_name(word: &str) -> bool {
    word.starts_with(char::is_alphabetic) && word.chars().all(|c| c.is_alphanumeric() || "-_'ℤℕ".contains(c))
}

impl Tree {
    pub fn new() -> Tree {
        let mut files = BTreeSet::new();
        files_below(&root(), "", &mut files);
        let definitions = index(&files, ".antt", defined_in_proof);
        let code = index(&files, ".rt", defined_in_code);
        let host = index(&files, ".rs", defined_in_code);
        Tree { definitions, code, host, header: header_names(), files }
    }

    pub fn is_file(&self, path: &str) -> bool {
        self.files.contains(path)
    }

    pub fn is_folder(&self, path: &str) -> bool {
        let folder = format!("{}/", path.trim_end_matches('/'));
        self.files.range(folder.clone()..).next().is_some_and(|first| first.starts_with(&folder))
    }

    pub fn is_crate(&self, name: &str) -> bool {
        self.is_folder(&format!("crates/{name}"))
    }

    /// A path as the documents write it: from the root, or below `crates/` or `host/`, with `.antt` or `.edit` left out.
    pub fn path(&self, written: &str) -> Option<String> {
        let written = written.trim_end_matches('/');
        let below = ["", "crates/", "host/"]
            .iter()
            .flat_map(|above| ["", ".antt", ".edit"].map(|end| format!("{above}{written}{end}")));
        below.into_iter().find(|path| self.is_file(path) || self.is_folder(path))
    }

    /// `specs/`, `must-fail/` and the like: a folder or a file that some crate has.
    pub fn in_some_crate(&self, path: &str) -> bool {
        let folder = format!("{path}/");
        let fits = |file: &String| file.splitn(3, '/').nth(2).is_some_and(|rest| rest == path || rest.starts_with(&folder));
        self.files.iter().any(|file| file.starts_with("crates/") && fits(file))
    }

    /// Whether a name is defined in a file, or in some file of a folder.
    pub fn defines(&self, path: &str, name: &str) -> bool {
        let folder = format!("{path}/");
        let there = |file: &str| file == path || file.starts_with(&folder);
        let maps = [&self.definitions, &self.code, &self.host];
        maps.iter().any(|map| map.iter().any(|(file, names)| there(file) && names.contains(name)))
    }

    /// Whether a name is defined anywhere, or names a crate, a program or a part of the header.
    pub fn knows(&self, name: &str) -> bool {
        let maps = [&self.definitions, &self.code, &self.host];
        self.is_crate(name)
            || self.header.contains(name)
            || maps.iter().any(|map| map.values().any(|names| names.contains(name)))
    }

    /// `crate::function`, `module::function` or `Type::method`: the last name is defined where the first one leads.
    pub fn code_path(&self, written: &str) -> bool {
        let parts: Vec<&str> = written.split("::").collect();
        let last = parts[parts.len() - 1];
        let first = parts[0];
        let in_crate = |file: &str| file.starts_with(&format!("crates/{first}/src/"));
        let in_module = |file: &str| file.ends_with(&format!("/{first}.rt")) || file.ends_with(&format!("/{first}.rs"));
        let with_type = |names: &BTreeSet<String>| first.starts_with(char::is_uppercase) && names.contains(first);
        let leads = |file: &str, names: &BTreeSet<String>| in_crate(file) || in_module(file) || with_type(names);
        let module = |file: &str| in_crate(file) && file.ends_with(&format!("/{last}.rt"));
        [&self.code, &self.host]
            .iter()
            .any(|map| map.iter().any(|(file, names)| module(file) || (leads(file, names) && names.contains(last))))
    }

    pub fn has_edit(&self, of: &str, name: &str) -> bool {
        self.is_file(&format!("crates/{of}/must-fail/{name}.edit"))
    }

    pub fn is_executable(&self, path: &str) -> bool {
        use std::os::unix::fs::PermissionsExt;
        fs::metadata(root().join(path)).is_ok_and(|data| data.is_file() && data.permissions().mode() & 0o111 != 0)
    }
}
