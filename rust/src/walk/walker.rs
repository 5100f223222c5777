//! The walk of a folder, before anything is excluded from it.

use std::ffi::OsString;
use std::fs::{self, FileType};
use std::io;
use std::mem;
use std::path::{Path, PathBuf};
use std::sync::Arc;
use std::vec;

use crate::walk::behavior::openable;
use crate::walk::entry::{Cause, Entry, TreeEntry, WalkError};
use crate::walk::iterator::{next_kept, Feed};
use crate::walk::{LinkBehavior, WalkBehavior};

/// What a walk looks for, by the paths from its root.
pub trait Matcher {
    type Entry: Entry;

    fn is_match(&self, path: &str) -> bool;

    /// Returns whether something below a folder can match.
    fn goes_on(&self, folder: &str) -> bool;

    /// Returns what the walk yields of an entry that matches.
    fn entry(&self, entry: TreeEntry) -> Self::Entry;
}

/// Where a walk begins.
#[derive(Debug)]
pub struct Start {
    /// Whether this is the root of the file system, and not that of the walk.
    pub is_rooted: bool,
    /// The names that lead from there to where the walk begins.
    pub names: Vec<String>,
}

/// A walk of a folder: an iterator over entries and errors.
///
/// A folder comes right before what is in it. What is in a folder comes in the order of the file system. All names of a folder
/// are read when the item after it is requested, and then it is closed: so at most one folder is open at any time, and none
/// between two items.
#[derive(Debug)]
#[must_use = "a walk finds nothing until its items are requested"]
pub struct Walker<M> {
    matcher: M,
    root: Arc<Path>,
    /// what is left to do before the first entry
    start: Option<Start>,
    least_depth: usize,
    greatest_depth: usize,
    link: LinkBehavior,
    /// the folders that contain the current entry
    folders: Vec<Folder>,
    /// the path of the current entry from the root
    candidate: String,
    depth: usize,
    /// whether the current entry is a folder that is to be opened
    is_opened: bool,
}

/// A folder whose names were read.
#[derive(Debug)]
struct Folder {
    /// how long its path from the root is
    length: usize,
    depth: usize,
    /// what is left of it
    items: vec::IntoIter<io::Result<Item>>,
}

#[derive(Debug)]
struct Item {
    name: OsString,
    file_type: FileType,
}

/// What a walk does with an entry.
#[derive(Clone, Copy, Debug)]
pub struct Visit {
    pub file_type: FileType,
    /// whether it is yielded
    pub is_kept: bool,
    /// whether it is a folder that is opened next
    pub is_opened: bool,
}

impl<M: Matcher> Walker<M> {
    /// Begins a walk, or returns one that yields nothing if there is no start.
    pub(crate) fn new(
        matcher: M,
        root: PathBuf,
        start: Option<Start>,
        behavior: WalkBehavior,
    ) -> Self {
        let is_rooted = start.as_ref().map_or(false, |start| start.is_rooted);
        let (least_depth, greatest_depth) = behavior.depth.ends();
        Walker {
            matcher,
            root: if is_rooted { PathBuf::new() } else { root }.into(),
            start: start.filter(|start| start.names.len() <= greatest_depth),
            least_depth,
            greatest_depth,
            link: behavior.link,
            folders: Vec::new(),
            candidate: String::from(if is_rooted { "/" } else { "" }),
            depth: 0,
            is_opened: false,
        }
    }

    pub(crate) fn candidate(&self) -> &str {
        &self.candidate
    }

    /// Opens the current entry if it is a folder that isn't excluded.
    pub(crate) fn decide(&mut self, visit: Visit) {
        self.is_opened = visit.is_opened;
    }

    /// Returns the current entry.
    pub(crate) fn tree_entry(&self, visit: Visit) -> TreeEntry {
        TreeEntry {
            path: self.path(),
            root: Arc::clone(&self.root),
            candidate: self.candidate.clone(),
            depth: self.depth,
            file_type: visit.file_type,
            link: self.link,
        }
    }

    /// Returns what the walk yields of the current entry.
    pub(crate) fn entry(&self, visit: Visit) -> M::Entry {
        self.matcher.entry(self.tree_entry(visit))
    }

    fn path(&self) -> PathBuf {
        self.path_of(&self.candidate)
    }

    fn path_of(&self, candidate: &str) -> PathBuf {
        if candidate.is_empty() {
            self.root.to_path_buf()
        } else {
            self.root.join(candidate)
        }
    }

    fn error(&self, cause: Cause) -> WalkError {
        WalkError::new(&self.path(), self.depth, cause)
    }

    /// Goes to where the walk begins. On the way to it no folder is opened.
    fn begin(&mut self, start: Start) -> Result<Visit, WalkError> {
        let mut file_type = self.look()?;
        for name in start.names {
            if !file_type.is_dir() {
                return Err(self.error(Cause::NotFolder));
            }
            self.enter(&name);
            file_type = self.look()?;
        }
        Ok(self.visit(file_type))
    }

    /// Returns what is at the current path.
    fn look(&self) -> Result<FileType, WalkError> {
        match self.link.metadata(&self.path()) {
            Ok(metadata) => Ok(metadata.file_type()),
            Err(error) => Err(self.error(Cause::Io(error))),
        }
    }

    /// Goes to a name in the folder at the current path.
    fn enter(&mut self, name: &str) {
        if !self.candidate.is_empty() && !self.candidate.ends_with('/') {
            self.candidate.push('/');
        }
        self.candidate.push_str(name);
        self.depth += 1;
    }

    fn visit(&self, file_type: FileType) -> Visit {
        let path = self.candidate();
        Visit {
            file_type,
            is_kept: self.least_depth <= self.depth && self.matcher.is_match(path),
            is_opened: file_type.is_dir()
                && self.depth < self.greatest_depth
                && self.matcher.goes_on(path),
        }
    }

    /// Reads all names of the folder at the current path.
    fn open(&mut self) -> Result<(), WalkError> {
        let items = list(&self.path()).map_err(|error| self.error(Cause::Io(error)))?;
        self.folders.push(Folder {
            length: self.candidate.len(),
            depth: self.depth,
            items: items.into_iter(),
        });
        Ok(())
    }

    /// Goes to the next item of the folders, if there is one.
    fn next_item(&mut self) -> Option<Result<Visit, WalkError>> {
        loop {
            let folder = self.folders.last_mut()?;
            if let Some(item) = folder.items.next() {
                self.candidate.truncate(folder.length);
                self.depth = folder.depth;
                return Some(self.visit_item(item));
            }
            self.folders.pop();
        }
    }

    fn visit_item(&mut self, item: io::Result<Item>) -> Result<Visit, WalkError> {
        let item = item.map_err(|error| self.error(Cause::Io(error)))?;
        if let Some(name) = item.name.to_str() {
            self.enter(name);
        } else {
            let path = self.path().join(item.name);
            return Err(WalkError::new(&path, self.depth + 1, Cause::NotText));
        }
        let file_type = match self.link {
            LinkBehavior::ReadTarget if item.file_type.is_symlink() => self.look_behind()?,
            _ => item.file_type,
        };
        Ok(self.visit(file_type))
    }

    /// Returns what the link at the current path leads to.
    fn look_behind(&self) -> Result<FileType, WalkError> {
        let file_type = self.look()?;
        if file_type.is_dir() {
            let around = self
                .folder_behind()
                .map_err(|error| self.error(Cause::Io(error)))?;
            if let Some(folder) = around {
                return Err(self.error(Cause::Cycle(folder)));
            }
        }
        Ok(file_type)
    }

    /// Returns the folder of the walk that contains the link at the current path and that it leads to, if there is one.
    fn folder_behind(&self) -> io::Result<Option<PathBuf>> {
        let target = fs::canonicalize(self.path())?;
        for folder in &self.folders {
            let path = self.path_of(&self.candidate[..folder.length]);
            if fs::canonicalize(openable(&path))? == target {
                return Ok(Some(path));
            }
        }
        Ok(None)
    }
}

/// Returns what is in a folder.
fn list(folder: &Path) -> io::Result<Vec<io::Result<Item>>> {
    let items = fs::read_dir(openable(folder))?;
    Ok(items
        .map(|item| {
            let item = item?;
            Ok(Item {
                name: item.file_name(),
                file_type: item.file_type()?,
            })
        })
        .collect())
}

impl<M: Matcher> Feed for Walker<M> {
    type Matcher = M;

    fn advance(&mut self) -> Option<Result<Visit, WalkError>> {
        if let Some(start) = self.start.take() {
            return Some(self.begin(start));
        }
        if mem::take(&mut self.is_opened) {
            if let Err(error) = self.open() {
                return Some(Err(error));
            }
        }
        self.next_item()
    }

    fn walker(&self) -> &Walker<M> {
        self
    }

    fn walker_mut(&mut self) -> &mut Walker<M> {
        self
    }
}

impl<M: Matcher> Iterator for Walker<M> {
    type Item = Result<M::Entry, WalkError>;

    fn next(&mut self) -> Option<Self::Item> {
        next_kept(self)
    }
}
