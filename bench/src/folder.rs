//! A folder for a while.

use std::path::PathBuf;
use std::{env, fs, io, process};

/// Removed with all that is in it at the end.
pub struct Folder(pub PathBuf);

impl Folder {
    pub fn new(name: &str) -> io::Result<Folder> {
        let folder = env::temp_dir().join(format!("recorder-{name}-{}", process::id()));
        fs::create_dir(&folder)?;
        Ok(Folder(folder))
    }
}

impl Drop for Folder {
    fn drop(&mut self) {
        let _ = fs::remove_dir_all(&self.0);
    }
}
