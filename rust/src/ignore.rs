//! Ignore lists.

use std::error::Error;
use std::fmt::{self, Debug, Display, Formatter};
use std::str::FromStr;
use std::sync::Arc;

use crate::sys::{self, Compared, Handle, LineFailure};
use crate::{BuildError, CandidatePath, Comparison, Glob};

/// An ignore list, with a glob on each line: paths that it matches are ignored or, after a `!`, aren't. The last line that
/// matches a path decides.
///
/// Lines that are empty or begin with `#` are skipped. A clone uses the same handle of the C library, as that of a
/// [`Glob`] does.
///
/// ```
/// use wax::walk::IgnoreList;
///
/// let list = IgnoreList::parse("**/*.log\n!keep.log\ntarget/**\n").unwrap();
/// assert!(list.is_ignored("a/b.log"));
/// assert!(!list.is_ignored("keep.log"));
///
/// let paths = ["src/lib.rs", "target/debug", "a.log"];
/// let kept: Vec<_> = paths.into_iter().filter(|path| !list.is_ignored(*path)).collect();
/// assert_eq!(kept, ["src/lib.rs"]);
/// ```
#[derive(Clone)]
pub struct IgnoreList {
    handle: Arc<Handle<sys::Ignore>>,
    text: Arc<str>,
}

impl IgnoreList {
    /// Builds a list from its lines. One carriage return at the end of each is dropped.
    ///
    /// # Errors
    ///
    /// Returns the error of the first line whose glob has one.
    pub fn parse(text: &str) -> Result<Self, IgnoreError> {
        match Handle::<sys::Ignore>::new(text) {
            Ok(handle) => Ok(IgnoreList {
                handle: Arc::new(handle),
                text: text.into(),
            }),
            Err(failure) => Err(IgnoreError::of_text(text, &failure)),
        }
    }

    /// Returns whether the list ignores the path.
    pub fn is_ignored<'p>(&self, path: impl Into<CandidatePath<'p>>) -> bool {
        self.handle.is_ignored(path.into().as_ref())
    }

    /// Returns whether the list ignores everything below the folder with this path, so that a walk needn't open it. If a `/`
    /// follows the last name of the path, `true` is no promise.
    ///
    /// ```
    /// use wax::walk::IgnoreList;
    ///
    /// let list = IgnoreList::parse("target/**\ndocs\n").unwrap();
    /// assert!(list.excludes_below("target"));
    /// assert!(list.is_ignored("docs") && !list.excludes_below("docs"));
    /// ```
    pub fn excludes_below<'p>(&self, folder: impl Into<CandidatePath<'p>>) -> bool {
        self.handle.excludes_below(folder.into().as_ref())
    }

    /// Returns the index of the last line that matches the path, or `None` if no line does. This line decides whether the path is
    /// ignored. Lines are counted from 0, without those that are skipped.
    ///
    /// Each call reads all lines anew, so it takes longer than [`IgnoreList::is_ignored`].
    ///
    /// ```
    /// use wax::walk::IgnoreList;
    ///
    /// let list = IgnoreList::parse("**/*.log\n!keep.log\n").unwrap();
    /// assert_eq!(list.deciding_line("a/b.log"), Some(0));
    /// assert_eq!(list.deciding_line("keep.log"), Some(1));
    /// assert_eq!(list.deciding_line("a.c"), None);
    /// ```
    pub fn deciding_line<'p>(&self, path: impl Into<CandidatePath<'p>>) -> Option<usize> {
        self.handle.deciding_line(path.into().as_ref())
    }

    /// Returns the indexes of the lines that decide nothing, ascending, counted as for [`IgnoreList::deciding_line`]. Without
    /// them, the list ignores the same paths, among the paths as walks have them: one or more names, with a `/` between each two.
    ///
    /// Each other line decides such a path, except those that [`IgnoreList::undecided_lines`] returns for the same `most_states`,
    /// which is the greatest number of states that a comparison of a line with others may take.
    ///
    /// ```
    /// use wax::walk::IgnoreList;
    /// use wax::MOST_STATES;
    ///
    /// let list = IgnoreList::parse("docs/*.o\n!keep.c\n**/*.o\n").unwrap();
    /// assert_eq!(list.idle_lines(MOST_STATES).unwrap(), [0, 1]);
    /// ```
    ///
    /// # Errors
    ///
    /// Returns an error if memory ran out.
    pub fn idle_lines(&self, most_states: usize) -> Result<Vec<usize>, BuildError> {
        self.lines(sys::IDLE_LINES, most_states)
    }

    /// Returns the indexes of the lines of which [`IgnoreList::idle_lines`] doesn't find out whether they decide a path.
    ///
    /// # Errors
    ///
    /// Returns an error if memory ran out.
    pub fn undecided_lines(&self, most_states: usize) -> Result<Vec<usize>, BuildError> {
        self.lines(sys::UNDECIDED_LINES, most_states)
    }

    /// Returns the list of the same text without lines that decide nothing. It ignores the same paths of walks. Without some lines
    /// others may decide nothing, too, so it removes lines until each that is left decides a path, except those of which this takes
    /// more than `most_states` states to find out. Lines that are empty or begin with `#` stay.
    ///
    /// ```
    /// use wax::walk::IgnoreList;
    /// use wax::MOST_STATES;
    ///
    /// let list = IgnoreList::parse("# built\n**/*.o\ndocs/a\n!docs/a\n").unwrap();
    /// assert_eq!(list.tidied(MOST_STATES).unwrap().text(), "# built\n**/*.o\n");
    /// ```
    ///
    /// # Errors
    ///
    /// Returns an error if memory ran out.
    pub fn tidied(&self, most_states: usize) -> Result<Self, BuildError> {
        let enough = self.lines(sys::TIDY, most_states)?;
        let mut index = 0;
        let kept = self.text.split_inclusive('\n').filter(|line| {
            if is_skipped(line) {
                return true;
            }
            index += 1;
            enough.contains(&(index - 1))
        });
        IgnoreList::parse(&kept.collect::<String>()).map_err(|error| error.error)
    }

    /// Returns the text that the list is built from.
    pub fn text(&self) -> &str {
        &self.text
    }

    /// Finds a shortest path that both lists ignore, among the same paths and within the same limit as
    /// [`overlap`](crate::overlap) finds one that two expressions match. Other threads that use one of the two wait until it ends.
    ///
    /// # Errors
    ///
    /// Returns an error if memory ran out.
    pub fn overlap(
        &self,
        other: &IgnoreList,
        most_states: usize,
    ) -> Result<Comparison, BuildError> {
        if Arc::ptr_eq(&self.handle, &other.handle) {
            // (the library takes no handle twice; what a list has in common with itself, it has in common with `**`)
            let everything = IgnoreList::parse("**").map_err(|error| error.error)?;
            return self.compared(sys::Ignore::OVERLAP, &everything, most_states);
        }
        self.compared(sys::Ignore::OVERLAP, other, most_states)
    }

    /// Finds a shortest path that this list ignores and another one doesn't, as [`IgnoreList::overlap`] finds one that both ignore.
    ///
    /// # Errors
    ///
    /// Returns an error if memory ran out.
    pub fn difference(
        &self,
        other: &IgnoreList,
        most_states: usize,
    ) -> Result<Comparison, BuildError> {
        self.compared(sys::Ignore::DIFFERENCE, other, most_states)
    }

    /// Finds a shortest path that exactly one of both lists ignores, as [`IgnoreList::overlap`] finds one that both ignore. If
    /// there is none, both ignore the same.
    ///
    /// ```
    /// use wax::walk::IgnoreList;
    /// use wax::{Comparison, MOST_STATES};
    ///
    /// let old = IgnoreList::parse("**/*.log\n").unwrap();
    /// let new = IgnoreList::parse("**/*.log\n!keep.log\n").unwrap();
    /// let found = old.compare(&new, MOST_STATES).unwrap();
    /// assert_eq!(found, Comparison::Text("keep.log".to_string()));
    /// ```
    ///
    /// # Errors
    ///
    /// Returns an error if memory ran out.
    pub fn compare(
        &self,
        other: &IgnoreList,
        most_states: usize,
    ) -> Result<Comparison, BuildError> {
        self.compared(sys::Ignore::COMPARE, other, most_states)
    }

    fn compared(
        &self,
        call: sys::CompareHandles<sys::Ignore>,
        other: &IgnoreList,
        most_states: usize,
    ) -> Result<Comparison, BuildError> {
        if Arc::ptr_eq(&self.handle, &other.handle) {
            return Ok(Comparison::Nothing);
        }
        let found = self.handle.compared(call, &other.handle, most_states);
        found.map_err(BuildError::without_place)
    }

    fn lines(&self, call: sys::FindLines, most_states: usize) -> Result<Vec<usize>, BuildError> {
        let lines = self.handle.lines(call, most_states);
        lines.map_err(BuildError::without_place)
    }
}

/// Returns whether a line has no glob.
fn is_skipped(line: &str) -> bool {
    matches!(line, "\n" | "\r" | "\r\n") || line.starts_with('#')
}

impl Debug for IgnoreList {
    fn fmt(&self, f: &mut Formatter<'_>) -> fmt::Result {
        f.debug_struct("IgnoreList").finish_non_exhaustive()
    }
}

impl FromStr for IgnoreList {
    type Err = IgnoreError;

    fn from_str(text: &str) -> Result<Self, IgnoreError> {
        IgnoreList::parse(text)
    }
}

/// The error of an ignore list that isn't built.
///
/// ```
/// use wax::walk::IgnoreList;
///
/// let error = IgnoreList::parse("*.log\n!a//b\n").unwrap_err();
/// assert_eq!(error.line(), Some(2));
/// assert_eq!(error.error().locations().next().unwrap().span(), (1, 2));
/// ```
#[derive(Clone, Debug)]
pub struct IgnoreError {
    line: Option<usize>,
    error: BuildError,
}

impl IgnoreError {
    /// Returns the number of the line that has the error, from 1. Lines that are skipped count, too. It is `None` if memory ran
    /// out.
    pub fn line(&self) -> Option<usize> {
        self.line
    }

    /// Returns the error of the line's glob. Its place is counted from the beginning of the glob, which is after a `!`.
    pub fn error(&self) -> &BuildError {
        &self.error
    }

    fn of_text(text: &str, failure: &LineFailure) -> Self {
        let line = Some(failure.line).filter(|line| *line > 0);
        let glob = line.and_then(|line| glob_of(text, line));
        let error = glob.and_then(|glob| Glob::new(glob).err());
        IgnoreError {
            line,
            error: error.unwrap_or_else(|| BuildError::without_place(failure.number)),
        }
    }
}

/// Returns the glob of a line.
fn glob_of(text: &str, line: usize) -> Option<&str> {
    let line = text.split('\n').nth(line - 1)?;
    let line = line.strip_suffix('\r').unwrap_or(line);
    Some(line.strip_prefix('!').unwrap_or(line))
}

impl Display for IgnoreError {
    fn fmt(&self, f: &mut Formatter<'_>) -> fmt::Result {
        if let Some(line) = self.line {
            write!(f, "line {line}: ")?;
        }
        Display::fmt(&self.error, f)
    }
}

impl Error for IgnoreError {}
