//! Counts what an expression matches in a folder: `walks wax|walkdir ROOT EXPRESSION`. bench/rust builds and times it.

use std::ffi::OsStr;
use std::os::unix::ffi::OsStrExt;

use globset::{GlobBuilder, GlobSetBuilder};
use walkdir::{DirEntry, WalkDir};

fn by_wax(root: &str, expression: &str) -> usize {
    let glob = wax::Glob::new(expression).unwrap();
    glob.walk(root).flatten().count()
}

fn by_walkdir(root: &str, expression: &str) -> usize {
    let mut builder = GlobBuilder::new(expression);
    let mut set = GlobSetBuilder::new();
    set.add(builder.literal_separator(true).build().unwrap());
    let set = set.build().unwrap();
    // (the root itself has no path from there, and matches none of the expressions)
    let is_match = |entry: &DirEntry| {
        let path = entry.path().as_os_str().as_bytes();
        let below = path.get(root.len() + 1..);
        below.map_or(false, |path| set.is_match(OsStr::from_bytes(path)))
    };
    WalkDir::new(root)
        .into_iter()
        .flatten()
        .filter(is_match)
        .count()
}

fn main() {
    let words: Vec<_> = std::env::args().collect();
    let (by, root, expression) = match words.as_slice() {
        [_, by, root, expression] => (by, root, expression),
        _ => panic!("walks wax|walkdir ROOT EXPRESSION"),
    };
    let count = match by.as_str() {
        "wax" => by_wax(root, expression),
        _ => by_walkdir(root, expression),
    };
    println!("{count}");
}
