//! Folders for the tests.

use std::fs;
use std::path::PathBuf;

/// A folder of its own, with a space in its name, which is removed in the end.
pub struct Folder(PathBuf);

impl Folder {
    pub fn new(name: &str) -> Folder {
        let named = format!("desk {name} {}", std::process::id());
        let all = fs::canonicalize(std::env::temp_dir()).expect("a folder for folders");
        let folder = Folder(all.join(named));
        fs::create_dir(&folder.0).expect("a new folder");
        folder
    }

    pub fn path(&self, name: &str) -> PathBuf {
        self.0.join(name)
    }

    pub fn write(&self, name: &str, bytes: impl AsRef<[u8]>) {
        let path = self.path(name);
        fs::create_dir_all(path.parent().expect("a folder")).expect("a new folder");
        fs::write(path, bytes).expect("a new file");
    }
}

impl Drop for Folder {
    fn drop(&mut self) {
        let _ = fs::remove_dir_all(&self.0);
    }
}
