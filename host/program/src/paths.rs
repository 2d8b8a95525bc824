//! A path as it is shown and written: each path in its own way, so that a name in a table leads back to the file.

use std::fmt::Write;
use std::os::unix::ffi::OsStrExt;
use std::path::Path;

use robequarry::text::Escaped;

/// Control characters are escaped as in a name. Bytes that are no UTF-8 are written as `\x{e9}`, and so is a backslash before `x{`.
pub fn shown(path: &Path) -> String {
    let mut shown = String::new();
    for chunk in path.as_os_str().as_bytes().utf8_chunks() {
        let text = Escaped(chunk.valid()).to_string().replace("\\x{", "\\x{5c}x{");
        shown.push_str(&text);
        for byte in chunk.invalid() {
            write!(shown, "\\x{{{byte:x}}}").expect("a string has room");
        }
    }
    shown
}

#[cfg(test)]
mod tests {
    use super::*;
    use std::ffi::OsStr;

    #[test]
    fn each_path_in_its_own_way() {
        let names: [&[u8]; 7] =
            [b"a/b.fit", b"kn\xe9e.fit", b"kn\xc3\xa9e.fit", b"kn\\x{e9}e.fit", b"\x1b", b"\\u{1b}", b"\xff\xfe"];
        let shown = names.map(|name| shown(Path::new(OsStr::from_bytes(name))));
        let expected = [
            "a/b.fit",
            "kn\\x{e9}e.fit",
            "kn\u{e9}e.fit",
            "kn\\x{5c}x{e9}e.fit",
            "\\u{1b}",
            "\\u{5c}u{1b}",
            "\\x{ff}\\x{fe}",
        ];
        assert_eq!(shown, expected);
    }
}
