//! The paths that are matched, and their matches.

use std::borrow::Cow;
use std::ffi::OsStr;
use std::fmt::{self, Debug, Display, Formatter};
use std::ops::Range;
use std::path::Path;

use crate::query::Span;

/// A path that is matched against patterns: a text.
///
/// In a path that isn't UTF-8, each part that isn't is replaced by `�`.
///
/// ```
/// use std::path::Path;
/// use wax::CandidatePath;
///
/// let path = CandidatePath::from(Path::new("src/lib.rs"));
/// assert_eq!(path.as_ref(), "src/lib.rs");
/// ```
#[derive(Clone)]
pub struct CandidatePath<'b> {
    text: Cow<'b, str>,
}

impl CandidatePath<'_> {
    /// Returns the path with a text of its own.
    pub fn into_owned(self) -> CandidatePath<'static> {
        CandidatePath {
            text: Cow::Owned(self.text.into_owned()),
        }
    }
}

impl AsRef<str> for CandidatePath<'_> {
    fn as_ref(&self) -> &str {
        &self.text
    }
}

impl Debug for CandidatePath<'_> {
    fn fmt(&self, f: &mut Formatter<'_>) -> fmt::Result {
        Debug::fmt(&self.text, f)
    }
}

impl Display for CandidatePath<'_> {
    fn fmt(&self, f: &mut Formatter<'_>) -> fmt::Result {
        Display::fmt(&self.text, f)
    }
}

impl<'b> From<&'b OsStr> for CandidatePath<'b> {
    fn from(text: &'b OsStr) -> Self {
        CandidatePath {
            text: text.to_string_lossy(),
        }
    }
}

impl<'b> From<&'b Path> for CandidatePath<'b> {
    fn from(path: &'b Path) -> Self {
        path.as_os_str().into()
    }
}

impl<'b> From<&'b str> for CandidatePath<'b> {
    fn from(text: &'b str) -> Self {
        CandidatePath { text: text.into() }
    }
}

/// The text of a path that matches, and of what the tokens of the pattern capture in it.
///
/// ```
/// use wax::{CandidatePath, Glob, Program};
///
/// let glob = Glob::new("src/**/*.{c,rs}").unwrap();
/// let path = CandidatePath::from("src/net/tcp.c");
/// let matched = glob.matched(&path).unwrap();
/// assert_eq!(matched.complete(), "src/net/tcp.c");
/// assert_eq!(matched.get(1), Some("net/"));
/// assert_eq!(matched.get(3), Some("c"));
/// assert_eq!(matched.get(4), None);
/// ```
#[derive(Debug)]
pub struct MatchedText<'t> {
    path: Cow<'t, str>,
    /// where the captures lie in the path
    spans: Vec<Span>,
}

impl<'t> MatchedText<'t> {
    pub(crate) fn new(path: &'t str, spans: Vec<Span>) -> Self {
        MatchedText {
            path: path.into(),
            spans,
        }
    }

    /// Returns the match with a text of its own.
    pub fn into_owned(self) -> MatchedText<'static> {
        MatchedText {
            path: Cow::Owned(self.path.into_owned()),
            spans: self.spans,
        }
    }

    /// Returns a copy of the match, with a text of its own.
    #[must_use]
    pub fn to_owned(&self) -> MatchedText<'static> {
        MatchedText {
            path: Cow::Owned(self.path.to_string()),
            spans: self.spans.clone(),
        }
    }

    /// Returns the whole path.
    pub fn complete(&self) -> &str {
        &self.path
    }

    /// Returns what a token captures: the first that captures has the index 1. At 0 is the whole path.
    pub fn get(&self, index: usize) -> Option<&str> {
        self.range(index).map(|range| &self.path[range])
    }

    /// Returns where what a token captures lies in the path, in bytes, with the index of [`get`](Self::get).
    ///
    /// ```
    /// use wax::{CandidatePath, Glob, Program};
    ///
    /// let path = CandidatePath::from("src/net/tcp.c");
    /// let matched = Glob::new("src/**/*.{c,rs}").unwrap().matched(&path).unwrap();
    /// assert_eq!(matched.range(0), Some(0..13));
    /// assert_eq!(matched.range(2), Some(8..11));
    /// assert_eq!(matched.range(4), None);
    /// ```
    pub fn range(&self, index: usize) -> Option<Range<usize>> {
        if index == 0 {
            return Some(0..self.path.len());
        }
        let (start, length) = *self.spans.get(index - 1)?;
        Some(start..start + length)
    }

    /// Returns the whole path, to match it again.
    pub fn to_candidate_path(&self) -> CandidatePath<'_> {
        self.complete().into()
    }
}
