//! A folder outside of the repository, which is gone after the test: `rt ci` reads no checkout that has links in it.

use std::path::{Path, PathBuf};
use std::{env, fs, process};

pub struct Room(PathBuf);

impl Room {
    /// A fresh folder of this name.
    pub fn new(name: &str) -> Room {
        let folder = env::temp_dir().join(format!("robequarry-{}-{name}", process::id()));
        let _ = fs::remove_dir_all(&folder);
        fs::create_dir_all(&folder).expect("the folder for tests can be written");
        Room(folder)
    }

    pub fn path(&self) -> &Path {
        &self.0
    }
}

impl Drop for Room {
    fn drop(&mut self) {
        let _ = fs::remove_dir_all(&self.0);
    }
}
