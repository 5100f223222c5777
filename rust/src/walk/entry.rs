//! What a walk yields: entries and errors.

use std::error::Error;
use std::fmt::{self, Display, Formatter};
use std::fs::{FileType, Metadata};
use std::io;
use std::path::{Path, PathBuf};
use std::sync::Arc;

use crate::walk::LinkBehavior;
use crate::{CandidatePath, MatchedText};

/// A file, a folder or a link that a walk finds.
pub trait Entry {
    /// Returns the path, by which the entry can be opened.
    fn into_path(self) -> PathBuf
    where
        Self: Sized;

    /// Returns the path, by which the entry can be opened: the root of the walk, and the path from there.
    fn path(&self) -> &Path;

    /// Returns the root of the walk, and the path from there, which patterns match. If a pattern begins with `/`, the first
    /// is empty.
    fn root_relative_paths(&self) -> (&Path, &Path);

    /// Returns the metadata of the entry: that of a link, unless links are followed.
    ///
    /// # Errors
    ///
    /// Returns an error if it can't be read.
    fn metadata(&self) -> Result<Metadata, WalkError>;

    /// Returns whether this is a file, a folder or a link: a link only if links aren't followed.
    fn file_type(&self) -> FileType;

    /// Returns the number of names that lead to the entry from the root of the walk, which is 0 for the root.
    fn depth(&self) -> usize;
}

/// An entry of any walk.
#[derive(Clone, Debug)]
pub struct TreeEntry {
    pub(crate) path: PathBuf,
    pub(crate) root: Arc<Path>,
    pub(crate) candidate: String,
    pub(crate) depth: usize,
    pub(crate) file_type: FileType,
    pub(crate) link: LinkBehavior,
}

impl Entry for TreeEntry {
    fn into_path(self) -> PathBuf {
        self.path
    }

    fn path(&self) -> &Path {
        &self.path
    }

    fn root_relative_paths(&self) -> (&Path, &Path) {
        (&self.root, self.candidate.as_ref())
    }

    fn metadata(&self) -> Result<Metadata, WalkError> {
        self.link
            .metadata(&self.path)
            .map_err(|error| WalkError::new(&self.path, self.depth, Cause::Io(error)))
    }

    fn file_type(&self) -> FileType {
        self.file_type
    }

    fn depth(&self) -> usize {
        self.depth
    }
}

/// An entry of a walk of a glob, with what the glob captures.
#[derive(Debug)]
pub struct GlobEntry {
    pub(crate) entry: TreeEntry,
    pub(crate) matched: MatchedText<'static>,
}

impl GlobEntry {
    /// Returns the path that the glob matches.
    pub fn to_candidate_path(&self) -> CandidatePath<'_> {
        self.matched.to_candidate_path()
    }

    /// Returns the match.
    ///
    /// ```
    /// use wax::Glob;
    ///
    /// for entry in Glob::new("src/*.rs").unwrap().walk(".") {
    ///     println!("{}", entry.unwrap().matched().get(1).unwrap());
    /// }
    /// ```
    pub fn matched(&self) -> &MatchedText<'static> {
        &self.matched
    }
}

impl Entry for GlobEntry {
    fn into_path(self) -> PathBuf {
        self.entry.into_path()
    }

    fn path(&self) -> &Path {
        self.entry.path()
    }

    fn root_relative_paths(&self) -> (&Path, &Path) {
        self.entry.root_relative_paths()
    }

    fn metadata(&self) -> Result<Metadata, WalkError> {
        self.entry.metadata()
    }

    fn file_type(&self) -> FileType {
        self.entry.file_type()
    }

    fn depth(&self) -> usize {
        self.entry.depth()
    }
}

impl From<GlobEntry> for TreeEntry {
    fn from(entry: GlobEntry) -> Self {
        entry.entry
    }
}

/// The error of something that a walk can't read. The walk goes on with the rest, unless this is its root.
///
/// ```
/// use std::io;
/// use wax::Glob;
///
/// let mut walk = Glob::new("nowhere/*").unwrap().walk("src");
/// let error = walk.next().unwrap().unwrap_err();
/// assert_eq!(error.path(), Some("src/nowhere".as_ref()));
/// assert_eq!(io::Error::from(error).kind(), io::ErrorKind::NotFound);
/// assert!(walk.next().is_none());
/// ```
#[derive(Debug)]
pub struct WalkError {
    path: PathBuf,
    depth: usize,
    cause: Cause,
}

#[derive(Debug)]
pub(crate) enum Cause {
    Io(io::Error),
    NotFolder,
    NotText,
    /// The link leads to this folder, which contains it.
    Cycle(PathBuf),
}

impl WalkError {
    pub(crate) fn new(path: &Path, depth: usize, cause: Cause) -> Self {
        WalkError {
            path: path.to_path_buf(),
            depth,
            cause,
        }
    }

    /// Returns the path of what can't be read.
    pub fn path(&self) -> Option<&Path> {
        Some(&self.path)
    }

    /// Returns the number of names that lead to it from the root of the walk.
    pub fn depth(&self) -> usize {
        self.depth
    }

    fn kind(&self) -> io::ErrorKind {
        match &self.cause {
            Cause::Io(error) => error.kind(),
            Cause::NotText => io::ErrorKind::InvalidData,
            Cause::NotFolder | Cause::Cycle(_) => io::ErrorKind::Other,
        }
    }
}

impl Display for WalkError {
    fn fmt(&self, f: &mut Formatter<'_>) -> fmt::Result {
        write!(f, "{}: ", self.path.display())?;
        match &self.cause {
            Cause::Io(error) => Display::fmt(error, f),
            Cause::NotFolder => f.write_str("not a folder"),
            Cause::NotText => f.write_str("the name isn't UTF-8"),
            Cause::Cycle(folder) => {
                write!(f, "a link to {}, which contains the link", folder.display())
            }
        }
    }
}

impl Error for WalkError {}

impl From<WalkError> for io::Error {
    fn from(error: WalkError) -> Self {
        io::Error::new(error.kind(), error)
    }
}
