//! The files that a call names: each file by itself, each folder by the files in it and in its folders, sorted.

use std::ffi::OsStr;
use std::fs;
use std::io;
use std::path::{Path, PathBuf};

/// A file to read, or why there is none.
pub enum Found {
    File(PathBuf),
    PassedOver(PathBuf, Why),
    Unread(PathBuf, io::Error),
}

/// Why something in a folder is passed over.
#[derive(Clone, Copy, Debug, PartialEq, Eq)]
pub enum Why {
    /// Its name is not that of a file of outlines.
    Name,
    /// It is a link to a folder.
    Link,
    /// It is a pipe, a socket or a device, of which a read may never end.
    Special,
}

impl Why {
    pub const ALL: [Why; 3] = [Why::Name, Why::Link, Why::Special];

    /// The reason, after "passed over:".
    pub fn words(self) -> &'static str {
        match self {
            Why::Name => "the name ends in none of .fit, .txt and .img",
            Why::Link => "a link to a folder, which is read only if the call names it",
            Why::Special => "not a regular file but a pipe, a socket or a device",
        }
    }
}

/// The files in their order. Of a folder no more is in memory than its own names and those of the folders above it.
pub struct Walk {
    /// What is still to be visited, the next one last; whether it was named in the call.
    waiting: Vec<(PathBuf, bool)>,
    every_file: bool,
}

impl Walk {
    /// The files of these paths. In a folder only names of files of outlines are taken, or every one.
    pub fn of(paths: impl DoubleEndedIterator<Item = PathBuf>, every_file: bool) -> Self {
        Walk { waiting: paths.rev().map(|path| (path, true)).collect(), every_file }
    }

    fn enter(&mut self, folder: &Path) -> io::Result<()> {
        let mut inside = fs::read_dir(folder)?.map(|entry| Ok(entry?.path())).collect::<io::Result<Vec<PathBuf>>>()?;
        inside.sort_unstable_by(|a, b| b.cmp(a));
        self.waiting.extend(inside.into_iter().map(|path| (path, false)));
        Ok(())
    }

    /// What becomes of something in a folder that is no folder itself.
    fn inside(&self, path: PathBuf) -> Found {
        if !self.every_file && !holds_outlines(&path) {
            // A link to a folder has no name of a file.
            let link = fs::metadata(&path).is_ok_and(|metadata| metadata.is_dir());
            return Found::PassedOver(path, if link { Why::Link } else { Why::Name });
        }
        match fs::metadata(&path) {
            Ok(metadata) if metadata.is_file() => Found::File(path),
            Ok(metadata) if metadata.is_dir() => Found::PassedOver(path, Why::Link),
            Ok(_) => Found::PassedOver(path, Why::Special),
            Err(error) => Found::Unread(path, error),
        }
    }
}

impl Iterator for Walk {
    type Item = Found;

    fn next(&mut self) -> Option<Found> {
        while let Some((path, named)) = self.waiting.pop() {
            if is_folder(&path, named) {
                if let Err(error) = self.enter(&path) {
                    return Some(Found::Unread(path, error));
                }
            } else if named {
                return Some(Found::File(path));
            } else {
                return Some(self.inside(path));
            }
        }
        None
    }
}

/// A link to a folder is followed only where the call names it, so that no folder is entered twice.
fn is_folder(path: &Path, named: bool) -> bool {
    let metadata = if named { fs::metadata(path) } else { fs::symlink_metadata(path) };
    metadata.is_ok_and(|metadata| metadata.is_dir()) && path.as_os_str() != "-"
}

/// Whether a name has this ending, in capitals or not.
pub fn ends_in(path: &Path, ending: &str) -> bool {
    path.extension().and_then(OsStr::to_str).is_some_and(|found| found.eq_ignore_ascii_case(ending))
}

/// Whether the name is that of a file of outlines.
fn holds_outlines(path: &Path) -> bool {
    ["fit", "txt", "img"].iter().any(|ending| ends_in(path, ending))
}
