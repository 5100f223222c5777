//! Folders that tests make and walk.

use std::fs::{self, File};
use std::path::PathBuf;
use std::sync::atomic::{AtomicUsize, Ordering};

use wax::walk::{Entry, FileIterator};

/// A folder that is removed in the end.
pub struct Folder(pub PathBuf);

impl Folder {
    /// Makes a folder with these paths: those that end with `/` are folders, and others files.
    pub fn new<T: AsRef<str>>(paths: &[T]) -> Self {
        static COUNT: AtomicUsize = AtomicUsize::new(0);
        let number = COUNT.fetch_add(1, Ordering::Relaxed);
        let name = format!("wax-{}-{number}", std::process::id());
        let folder = Folder(std::env::temp_dir().join(name));
        fs::create_dir(&folder.0).unwrap();
        for path in paths {
            folder.make(path.as_ref());
        }
        folder
    }

    fn make(&self, path: &str) {
        let whole = self.0.join(path);
        if path.ends_with('/') {
            fs::create_dir_all(whole).unwrap();
        } else {
            fs::create_dir_all(whole.parent().unwrap()).unwrap();
            File::create(whole).unwrap();
        }
    }
}

impl Drop for Folder {
    fn drop(&mut self) {
        let _ = fs::remove_dir_all(&self.0);
    }
}

/// Returns the path of an entry from the root of the walk.
pub fn relative(entry: &dyn Entry) -> String {
    let (_, path) = entry.root_relative_paths();
    path.to_str().unwrap().to_string()
}

/// Returns the paths of all entries from the root, sorted.
pub fn found(walk: impl FileIterator) -> Vec<String> {
    let mut paths: Vec<_> = walk.flatten().map(|entry| relative(&entry)).collect();
    paths.sort_unstable();
    paths
}
