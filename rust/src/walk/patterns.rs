//! The walks of paths, globs and sets.

use std::path::{Path, PathBuf};
use std::sync::Arc;

use crate::sys::{self, Handle};
use crate::walk::entry::{GlobEntry, TreeEntry};
use crate::walk::walker::{Matcher, Start, Walker};
use crate::walk::WalkBehavior;
use crate::{Any, Glob, MatchedText};

/// What matches every path.
#[derive(Debug)]
pub struct Everything;

impl Matcher for Everything {
    type Entry = TreeEntry;

    fn is_match(&self, _: &str) -> bool {
        true
    }

    fn goes_on(&self, _: &str) -> bool {
        true
    }

    fn entry(&self, entry: TreeEntry) -> TreeEntry {
        entry
    }
}

#[derive(Debug)]
pub struct GlobMatcher(Arc<Handle<sys::Glob>>);

impl Matcher for GlobMatcher {
    type Entry = GlobEntry;

    fn is_match(&self, path: &str) -> bool {
        self.0.is_match(path)
    }

    fn goes_on(&self, folder: &str) -> bool {
        self.0.goes_on(folder)
    }

    fn entry(&self, entry: TreeEntry) -> GlobEntry {
        let path = &entry.candidate;
        let spans = self.0.spans(path).expect("the glob matches the path");
        let matched = MatchedText::new(path, spans).into_owned();
        GlobEntry { entry, matched }
    }
}

#[derive(Debug)]
pub struct AnyMatcher {
    set: Arc<Handle<sys::Set>>,
    /// the patterns that aren't in the set
    others: Vec<Arc<Handle<sys::Glob>>>,
}

impl Matcher for AnyMatcher {
    type Entry = TreeEntry;

    fn is_match(&self, path: &str) -> bool {
        self.set.is_match(path) || self.others.iter().any(|glob| glob.is_match(path))
    }

    fn goes_on(&self, folder: &str) -> bool {
        self.set.goes_on(folder) || self.others.iter().any(|glob| glob.goes_on(folder))
    }

    fn entry(&self, entry: TreeEntry) -> TreeEntry {
        entry
    }
}

/// A walk of everything in a folder.
pub type WalkTree = Walker<Everything>;

/// A walk of what a glob matches.
pub type GlobWalker = Walker<GlobMatcher>;

/// A walk of what a set matches.
pub type AnyWalker = Walker<AnyMatcher>;

/// Walks of paths.
pub trait PathExt {
    /// Walks everything in the folder, at any depth. The first entry is the folder itself.
    fn walk(&self) -> WalkTree {
        self.walk_with_behavior(())
    }

    /// Walks everything in the folder, as far as the behavior says.
    fn walk_with_behavior(&self, behavior: impl Into<WalkBehavior>) -> WalkTree;
}

impl PathExt for Path {
    fn walk_with_behavior(&self, behavior: impl Into<WalkBehavior>) -> WalkTree {
        let start = Start {
            is_rooted: false,
            names: Vec::new(),
        };
        Walker::new(Everything, self.to_path_buf(), Some(start), behavior.into())
    }
}

impl Glob<'_> {
    /// Walks a folder, and yields the entries whose paths from there the glob matches, with what it captures.
    ///
    /// A folder is opened only if the glob can match something below it. If what the glob matches begins with `/`, the walk
    /// begins at the root of the file system instead.
    ///
    /// ```
    /// use wax::walk::Entry;
    /// use wax::Glob;
    ///
    /// let walk = Glob::new("src/**/behavior.{rs,md}").unwrap().walk(".");
    /// let found: Vec<_> = walk.map(|entry| entry.unwrap().into_path()).collect();
    /// assert_eq!(found, [std::path::Path::new("./src/walk/behavior.rs")]);
    /// ```
    pub fn walk(&self, path: impl Into<PathBuf>) -> GlobWalker {
        self.walk_with_behavior(path, ())
    }

    /// Walks a folder as [`walk`](Self::walk) does, as far as the behavior says.
    pub fn walk_with_behavior(
        &self,
        path: impl Into<PathBuf>,
        behavior: impl Into<WalkBehavior>,
    ) -> GlobWalker {
        let matcher = GlobMatcher(Arc::clone(self.handle()));
        let start = shared_start(&[self.handle().partition().0]);
        Walker::new(matcher, path.into(), start, behavior.into())
    }
}

impl Any<'_> {
    /// Walks a folder once for all patterns, and yields the entries whose paths from there one of them matches.
    ///
    /// A folder is opened only if one of the patterns can match something below it. If all that they match begins with `/`, the
    /// walk begins at the root of the file system instead.
    ///
    /// ```
    /// use wax::any;
    ///
    /// let pages = any(["*.md", "doc/**"]).unwrap();
    /// assert_eq!(pages.walk(".").flatten().count(), 1);
    /// ```
    pub fn walk(&self, path: impl Into<PathBuf>) -> AnyWalker {
        self.walk_with_behavior(path, ())
    }

    /// Walks a folder as [`walk`](Self::walk) does, as far as the behavior says.
    pub fn walk_with_behavior(
        &self,
        path: impl Into<PathBuf>,
        behavior: impl Into<WalkBehavior>,
    ) -> AnyWalker {
        let others = self.rests().map(|glob| Arc::clone(glob.handle()));
        let prefixes = self.globs().iter().map(|glob| glob.handle().partition().0);
        let start = shared_start(&prefixes.collect::<Vec<_>>());
        let matcher = AnyMatcher {
            set: Arc::clone(self.set()),
            others: others.collect(),
        };
        Walker::new(matcher, path.into(), start, behavior.into())
    }
}

/// Returns where a walk begins: at the names with which all prefixes begin. Returns `None` if there is no path of names that
/// begins with a prefix.
fn shared_start(prefixes: &[String]) -> Option<Start> {
    let mut starts = prefixes
        .iter()
        .filter(|prefix| !prefix.contains("//"))
        .map(|prefix| start_of(prefix));
    let first = starts.next()?;
    Some(starts.fold(first, |start, other| start.shared(&other)))
}

fn start_of(prefix: &str) -> Start {
    let names = prefix.split('/').filter(|name| !name.is_empty());
    Start {
        is_rooted: prefix.starts_with('/'),
        names: names.map(str::to_string).collect(),
    }
}

impl Start {
    /// Returns the names with which both begin: none if only one of them is rooted.
    fn shared(mut self, other: &Start) -> Start {
        let pairs = self.names.iter().zip(&other.names);
        let count = pairs.take_while(|(a, b)| a == b).count();
        let is_alike = self.is_rooted == other.is_rooted;
        self.names.truncate(if is_alike { count } else { 0 });
        self.is_rooted &= other.is_rooted;
        self
    }
}
