//! Walks of folders that each test makes. What a walk has to find is worked out by hand. The rows of walks are in `rows.rs`, and
//! tests/walking checks which folders are opened.

use std::fs::{self, File};
use std::io;
use std::num::NonZeroUsize;
use std::path::{Path, PathBuf};

use wax::query::LocatedError;
use wax::walk::{
    DepthBehavior, DepthMax, DepthMin, DepthMinMax, Entry, EntryResidue, FileIterator, GlobEntry,
    IgnoreList, LinkBehavior, PathExt, TreeEntry, WalkBehavior, WalkError,
};
use wax::{Glob, GlobError, Program};

mod folder;

use folder::{found, relative, Folder};

fn project() -> Folder {
    Folder::new(&[
        "doc/guide.md",
        "src/glob.rs",
        "src/lib.rs",
        "tests/harness/mod.rs",
        "tests/walk.rs",
        "README.md",
    ])
}

const ALL: [&str; 11] = [
    "",
    "README.md",
    "doc",
    "doc/guide.md",
    "src",
    "src/glob.rs",
    "src/lib.rs",
    "tests",
    "tests/harness",
    "tests/harness/mod.rs",
    "tests/walk.rs",
];

/// Returns all paths of the project but some.
fn all_but_these(paths: &[&str]) -> Vec<&'static str> {
    let kept = ALL.into_iter().filter(|path| !paths.contains(path));
    kept.collect()
}

fn walk(expression: &str, folder: &Folder) -> impl FileIterator<Entry = GlobEntry> {
    Glob::new(expression).unwrap().walk(folder.0.as_path())
}

// What is found

#[test]
fn walks_paths() {
    let project = project();
    assert_eq!(found(project.0.walk()), ALL);
    assert_eq!(found(project.0.join("README.md").walk()), [""]);
    let shallow = project.0.walk_with_behavior(DepthMax(1));
    assert_eq!(found(shallow), ["", "README.md", "doc", "src", "tests"]);
}

#[test]
fn walks_rests() {
    let project = project();
    let (prefix, rest) = Glob::new("tests/harness/**/*.rs").unwrap().partition();
    let walk = rest.unwrap().walk(project.0.join(&prefix));
    assert_eq!(found(walk), ["mod.rs"]);
    let (prefix, rest) = Glob::new("src/lib.rs").unwrap().partition_or_empty();
    assert!(rest.is_empty() && !Glob::tree().is_empty());
    let paths: Vec<_> = rest
        .walk(project.0.join(prefix))
        .map(|entry| entry.unwrap().into_path())
        .collect();
    assert_eq!(paths, [project.0.join("src/lib.rs")]);
}

#[test]
fn walks_sets_of_rests() {
    let project = project();
    let globs = ["src/(?i)*.RS", "docs/*.md"].map(Glob::new);
    let rests = globs.map(|glob| glob.unwrap().partition().1.unwrap());
    let any = wax::any(rests.into_iter().map(Ok).chain([Glob::new("x<{/}:2>")])).unwrap();
    let root = project.0.join("src");
    assert_eq!(found(any.walk(&root)), ["glob.rs", "lib.rs"]);
    assert_eq!(found(any.walk_with_behavior(&root, DepthMax(0))), [""; 0]);
}

#[test]
fn begins_where_all_matches_begin() {
    let project = project();
    let count = |patterns: &[&'static str]| {
        let any = wax::any(patterns.iter().copied()).unwrap();
        any.walk(&project.0).count()
    };
    // (an error would count)
    assert_eq!(count(&["lib/a", "lib/b"]), 1);
    assert_eq!(count(&["lib/a", "library/b"]), 0);
    assert_eq!(count(&["lib/a", "/lib/a"]), 0);
    assert_eq!(count(&["/lib/a", "lib/a"]), 0);
    assert_eq!(count(&["lib/a", "src/lib.rs", "lib<{/}:2>"]), 1);
    assert_eq!(count(&["lib<{/}:2>"]), 0);
    assert_eq!(count(&[]), 0);
}

#[test]
fn yields_folders_before_their_items() {
    let project = project();
    let paths: Vec<_> = project
        .0
        .walk()
        .map(|entry| entry.unwrap().into_path())
        .collect();
    assert_eq!(paths[0], project.0);
    for (index, path) in paths.iter().enumerate().skip(1) {
        let folder = path.parent().unwrap();
        // (between a folder and what is in it there is only what is below the folder)
        let start = paths.iter().position(|it| it == folder).unwrap();
        assert!(
            paths[start..index].iter().all(|it| it.starts_with(folder)),
            "{path:?}"
        );
    }
}

#[cfg(target_os = "linux")]
#[test]
fn keeps_no_folder_open() {
    let project = project();
    let is_below = |path: &PathBuf| path.starts_with(&project.0);
    for entry in project.0.walk() {
        assert!(entry.is_ok());
        let open = fs::read_dir("/proc/self/fd").unwrap().flatten();
        let mut open = open.filter_map(|it| fs::read_link(it.path()).ok());
        assert_eq!(open.find(is_below), None);
    }
}

// Entries

#[test]
fn describes_entries() {
    let project = project();
    let mut walk = walk("tests/{harness}/*", &project);
    let entry = walk.next().unwrap().unwrap();
    assert_eq!(entry.path(), project.0.join("tests/harness/mod.rs"));
    let paths = (project.0.as_path(), Path::new("tests/harness/mod.rs"));
    assert_eq!(entry.root_relative_paths(), paths);
    assert_eq!(entry.depth(), 3);
    assert!(entry.file_type().is_file());
    assert_eq!(entry.metadata().unwrap().len(), 0);
    assert_eq!(entry.to_candidate_path().as_ref(), "tests/harness/mod.rs");
    let matched = entry.matched();
    assert_eq!(
        (matched.get(1), matched.get(2), matched.get(3)),
        (Some("harness"), Some("mod.rs"), None)
    );
    let entry = TreeEntry::from(entry);
    assert_eq!(
        entry.clone().into_path(),
        project.0.join("tests/harness/mod.rs")
    );
    fs::remove_file(entry.path()).unwrap();
    assert_eq!(entry.metadata().unwrap_err().depth(), 3);
    assert!(walk.next().is_none() && walk.next().is_none());
}

#[test]
fn joins_paths() {
    let path = |expression: &str, root: &str| {
        let mut walk = Glob::new(expression).unwrap().walk(root);
        walk.next()
            .unwrap()
            .unwrap()
            .into_path()
            .display()
            .to_string()
    };
    // (tests run in the folder of the crate)
    assert_eq!(path("src/lib.rs", ""), "src/lib.rs");
    assert_eq!(path("src/lib.rs", "."), "./src/lib.rs");
    assert_eq!(path("l[i]b.rs", "src"), "src/lib.rs");
    assert_eq!(path("l[i]b.rs", "src/"), "src/lib.rs");
    assert_eq!(path("C[a]rgo.toml", ""), "Cargo.toml");
    assert_eq!(path("../{Cargo.toml}", "src"), "src/../Cargo.toml");
    assert_eq!(path("", "src"), "src");
    assert_eq!(path("/", "src"), "/");
    let root = Path::new("").walk().next().unwrap().unwrap();
    assert_eq!(root.path(), Path::new(""));
    assert!(root.metadata().unwrap().is_dir());
}

#[test]
fn begins_at_the_root() {
    let project = project();
    let top = project.0.to_str().unwrap();
    let expression = format!("{}/src/l*", wax::escape(top));
    let mut walk = Glob::new(&expression).unwrap().walk("nowhere");
    let entry = walk.next().unwrap().unwrap();
    let path = project.0.join("src/lib.rs");
    assert_eq!(entry.path(), path);
    assert_eq!(entry.root_relative_paths(), (Path::new(""), path.as_path()));
    assert_eq!(entry.depth(), path.components().count() - 1);
    assert!(walk.next().is_none());
}

// Depths

#[test]
fn begins_in_range() {
    let project = project();
    let count = |expression, depth: DepthBehavior| {
        let glob = Glob::new(expression).unwrap();
        glob.walk_with_behavior(&project.0, depth).count()
    };
    assert_eq!(count("src/lib.rs", DepthMax(2).into()), 1);
    // (nothing is read, so nothing is missing)
    assert_eq!(count("src/lib.rs", DepthMax(1).into()), 0);
    assert_eq!(count("nowhere/*", DepthMax(0).into()), 0);
    assert_eq!(count("src/*", DepthMin::from_min_or_unbounded(3)), 0);
}

#[test]
fn builds_depths() {
    let both = |min: usize, max| DepthMinMax::from_depths_or_max(min, max);
    assert_eq!(
        DepthBehavior::bounded(2, None),
        Some(DepthMin::from_min_or_unbounded(2))
    );
    assert_eq!(DepthBehavior::bounded(None, 2), Some(DepthMax(2).into()));
    assert_eq!(DepthBehavior::bounded(2, 3), Some(both(2, 3)));
    assert_eq!(both(3, 2), both(2, 3));
    assert_eq!(both(0, 3), DepthMax(3).into());
    for (min, max) in [
        (Some(0), None),
        (None, None),
        (Some(3), Some(2)),
        (Some(0), Some(2)),
    ] {
        assert_eq!(DepthBehavior::bounded(min, max), None, "{min:?} {max:?}");
    }
    let depth = Glob::new("a/b/**").unwrap().depth();
    assert_eq!(
        DepthBehavior::bounded_at_depth_variance(1, 2, depth),
        Some(both(3, 4))
    );
    assert_eq!(
        DepthBehavior::bounded_at_depth_variance(None, usize::MAX, depth),
        None
    );
    let greatest = DepthMinMax {
        min: NonZeroUsize::new(2).unwrap(),
        extent: usize::MAX,
    };
    assert_eq!(greatest.max().get(), usize::MAX);
    assert_eq!(
        (usize::from(DepthMax::from(2)), DepthMin::try_from(0_usize)),
        (2, Err(()))
    );
    assert_eq!(WalkBehavior::from(DepthMax(2)).depth, DepthMax(2).into());
    assert_eq!(WalkBehavior::from(()), WalkBehavior::default());
}

// Exclusion

#[test]
fn excludes_patterns() {
    let project = project();
    let all_but = |pattern| found(project.0.walk().not(pattern).unwrap());
    assert_eq!(all_but(""), ALL[1..]);
    assert_eq!(all_but("tests/**"), ALL[..7]);
    let any = wax::any(["**/*.rs", "tests/**", ""]);
    let walk = project.0.walk().not(any).unwrap();
    assert_eq!(found(walk), ["README.md", "doc", "doc/guide.md", "src"]);
    let (_, rest) = Glob::new("x/(?i){SRC/*,*.md}").unwrap().partition();
    let walk = project.0.walk().not(rest.unwrap()).unwrap();
    let excluded = ["src/glob.rs", "src/lib.rs", "README.md"];
    assert_eq!(found(walk), all_but_these(&excluded));
}

#[test]
fn excludes_one_after_another() {
    let project = project();
    let walk = walk("**/*.{md,rs}", &project);
    let walk = walk
        .not("tests/harness")
        .unwrap()
        .not("**/harness/**")
        .unwrap();
    let walk = walk.not("**/g*").unwrap();
    assert_eq!(found(walk), ["README.md", "src/lib.rs", "tests/walk.rs"]);
    assert!(project.0.walk().not("a//b").is_err());
}

#[test]
fn excludes_names_that_lists_would_skip() {
    let folder = Folder::new(&["#a", "!b", "c\r", "d\ne"]);
    for (pattern, wanted) in [
        ("#a", ["", "!b", "c\r", "d\ne"]),
        ("!b", ["", "#a", "c\r", "d\ne"]),
        ("c\r", ["", "!b", "#a", "d\ne"]),
        ("d\ne", ["", "!b", "#a", "c\r"]),
    ] {
        let walk = folder.0.walk().not(pattern).unwrap();
        assert_eq!(found(walk), wanted, "{pattern:?}");
    }
}

#[test]
fn filters_entries() {
    let project = project();
    let mut seen = Vec::new();
    let filtered = walk("**/*.rs", &project).filter_entry(|entry| {
        let path = relative(entry);
        let residue = match path.as_str() {
            "src/lib.rs" | "tests" => Some(EntryResidue::File),
            "tests/harness" => Some(EntryResidue::Tree),
            _ => None,
        };
        seen.push(path);
        residue
    });
    assert_eq!(found(filtered), ["src/glob.rs", "tests/walk.rs"]);
    seen.sort_unstable();
    assert_eq!(seen, all_but_these(&["tests/harness/mod.rs"]));
}

#[test]
fn filters_see_what_was_excluded() {
    let project = project();
    let mut count = 0;
    let filtered = project.0.walk().not("*/*").unwrap().filter_entry(|_| {
        count += 1;
        None
    });
    assert_eq!(
        found(filtered),
        [
            "",
            "README.md",
            "doc",
            "src",
            "tests",
            "tests/harness/mod.rs"
        ]
    );
    assert_eq!(count, ALL.len());
}

#[test]
fn ignores_by_lists() {
    let project = project();
    let list = IgnoreList::parse("src/**\r\n!src/lib.rs\r\n").unwrap();
    let walk = walk("**/*.rs", &project).ignore(&list);
    let walk = walk.not("**/w*").unwrap();
    assert_eq!(found(walk), ["src/lib.rs", "tests/harness/mod.rs"]);
    assert!(list.is_ignored(Path::new("src/a")) && !list.clone().is_ignored("src/lib.rs"));
    assert!(list.is_ignored("src") && !list.excludes_below("src"));
}

#[test]
fn reports_lines_with_errors() {
    let error = IgnoreList::parse("# a\n*.o\n!b//c\r\n[").unwrap_err();
    assert_eq!(error.line(), Some(3));
    let rule = "malformed glob expression: adjacent component boundaries `/` or `**`";
    assert_eq!(error.to_string(), format!("line 3: {rule}"));
    let spans: Vec<_> = error.error().locations().map(LocatedError::span).collect();
    assert_eq!(spans, [(1, 2)]);
    let error = IgnoreList::parse("<a*:1000000>").unwrap_err();
    assert_eq!(
        (error.line(), error.error().locations().count()),
        (Some(1), 0)
    );
}

// Errors

/// Returns the path of each error below a folder, its depth and kind, and of each entry the path from the root.
fn errors(folder: &Folder, walk: impl FileIterator) -> Vec<(PathBuf, usize, io::ErrorKind)> {
    walk.filter_map(Result::err)
        .map(|error| {
            let path = error.path().unwrap().strip_prefix(&folder.0).unwrap();
            (
                path.to_path_buf(),
                error.depth(),
                io::Error::from(error).kind(),
            )
        })
        .collect()
}

#[test]
fn reports_what_is_not_there() {
    let project = project();
    for (expression, path, depth, kind) in [
        ("lib/*", "lib", 1, io::ErrorKind::NotFound),
        ("src/net/tcp/*", "src/net", 2, io::ErrorKind::NotFound),
        ("README.md/x", "README.md", 1, io::ErrorKind::Other),
    ] {
        let wanted = [(path.into(), depth, kind)];
        assert_eq!(
            errors(&project, walk(expression, &project)),
            wanted,
            "{expression}"
        );
    }
    let mut walk = project.0.join("nowhere").walk();
    assert_eq!(walk.next().unwrap().unwrap_err().depth(), 0);
    assert!(walk.next().is_none());
}

#[test]
fn goes_on_after_errors() {
    let folder = Folder::new(&["a/b/c", "d"]);
    let mut kept = Vec::new();
    let mut failed = Vec::new();
    for item in folder.0.walk() {
        match item {
            Ok(entry) => kept.push(relative(&entry)),
            Err(error) => failed.push(error),
        }
        if kept.last().map(String::as_str) == Some("a/b") {
            // (it was found, and isn't read yet)
            let _ = fs::remove_dir_all(folder.0.join("a/b"));
        }
    }
    kept.sort_unstable();
    assert_eq!(kept, ["", "a", "a/b", "d"]);
    assert_eq!(failed.len(), 1);
    assert_eq!(failed[0].path(), Some(folder.0.join("a/b").as_path()));
    assert_eq!(failed[0].depth(), 2);
    let shown = failed[0].to_string();
    assert!(shown.contains("/a/b: "), "{shown}");
}

#[cfg(target_os = "linux")]
#[test]
fn reports_names_that_are_not_text() {
    use std::ffi::OsStr;
    use std::os::unix::ffi::OsStrExt;

    let folder = Folder::new(&["a/b"]);
    let name = OsStr::from_bytes(b"a/\xff.txt");
    File::create(folder.0.join(name)).unwrap();
    let wanted = [(name.into(), 2, io::ErrorKind::InvalidData)];
    assert_eq!(errors(&folder, walk("**", &folder)), wanted);
    assert_eq!(walk("a/*", &folder).flatten().count(), 1);
}

#[test]
fn propagates_errors() {
    fn count(expression: &str, root: &Path) -> Result<usize, GlobError> {
        let glob = Glob::new(expression)?;
        let entries: Result<Vec<_>, WalkError> = glob.walk(root).not("**/*.md")?.collect();
        Ok(entries?.len())
    }
    let project = project();
    assert_eq!(count("**/*.{md,rs}", &project.0).unwrap(), 4);
    assert!(matches!(
        count("a//b", &project.0),
        Err(GlobError::Build(_))
    ));
    assert!(matches!(count("a/*", &project.0), Err(GlobError::Walk(_))));
}

// Links

#[cfg(unix)]
mod links {
    use super::*;
    use std::os::unix::fs::symlink;

    fn with_links() -> Folder {
        let folder = Folder::new(&["a/b/c", "d/"]);
        symlink("../a", folder.0.join("d/a")).unwrap();
        symlink("..", folder.0.join("a/up")).unwrap();
        symlink("nowhere", folder.0.join("broken")).unwrap();
        folder
    }

    #[test]
    fn are_entries() {
        let folder = with_links();
        let paths = ["", "a", "a/b", "a/b/c", "a/up", "broken", "d", "d/a"];
        assert_eq!(found(folder.0.walk()), paths);
        let mut walk = walk("broken", &folder);
        let entry = walk.next().unwrap().unwrap();
        assert!(entry.file_type().is_symlink() && entry.metadata().unwrap().is_symlink());
    }

    #[test]
    fn are_not_folders() {
        let folder = with_links();
        let wanted = [("d/a".into(), 2, io::ErrorKind::Other)];
        assert_eq!(errors(&folder, walk("d/a/b", &folder)), wanted);
        assert_eq!(found(folder.0.join("d/a").walk()), [""]);
    }

    #[test]
    fn are_followed() {
        let folder = with_links();
        let walk = |expression, root| {
            let glob = Glob::new(expression).unwrap();
            glob.walk_with_behavior(folder.0.join(root), LinkBehavior::ReadTarget)
        };
        let mut paths = Vec::new();
        let mut failed = Vec::new();
        for item in walk("**", "") {
            match item {
                Ok(entry) => {
                    assert!(
                        !entry.file_type().is_symlink() && !entry.metadata().unwrap().is_symlink()
                    );
                    paths.push(relative(&entry));
                }
                Err(error) => failed.push(
                    error
                        .path()
                        .unwrap()
                        .strip_prefix(&folder.0)
                        .unwrap()
                        .to_path_buf(),
                ),
            }
        }
        paths.sort_unstable();
        failed.sort_unstable();
        // (`a/up` leads to the root, which contains it; so does `d/a/up`)
        assert_eq!(
            paths,
            ["", "a", "a/b", "a/b/c", "d", "d/a", "d/a/b", "d/a/b/c"]
        );
        assert_eq!(failed, ["a/up", "broken", "d/a/up"].map(PathBuf::from));
        assert_eq!(found(walk("d/a/b/*", "")), ["d/a/b/c"]);
        assert_eq!(found(walk("b/*", "d/a")), ["b/c"]);
    }
}

// Owned walks

#[test]
fn walks_outlive_globs() {
    fn may_be_sent<T: Send + 'static>(walk: T) -> T {
        walk
    }
    let project = project();
    let walk = {
        let expression = String::from("src/*");
        let glob = Glob::new(&expression).unwrap();
        may_be_sent(glob.walk(&project.0).not("**/g*").unwrap())
    };
    let paths = std::thread::spawn(|| found(walk)).join().unwrap();
    assert_eq!(paths, ["src/lib.rs"]);
    let any = wax::any(["src/*", "doc"]).unwrap();
    assert_eq!(found(may_be_sent(any.walk(&project.0))).len(), 3);
    assert_eq!(found(may_be_sent(project.0.walk())).len(), ALL.len());
}
