//! Matches paths against globs such as `src/**/*.{c,rs}`, and walks folders, with the names and types of the crate wax 0.7.0. It
//! calls a C library, which is proved to match exactly the paths that the language of globs defines.
//!
//! ```
//! use wax::{CandidatePath, Glob, Program};
//!
//! let glob = Glob::new("src/**/*.{c,rs}").unwrap();
//! assert!(glob.is_match("src/net/tcp.c"));
//!
//! let path = CandidatePath::from("src/net/tcp.c");
//! assert_eq!(glob.matched(&path).unwrap().get(2), Some("tcp"));
//! ```
//!
//! The module [`walk`] finds the files that a glob matches. [`overlap`], [`difference`] and [`compare`] compare two expressions by
//! the paths that they match; the methods of these names of [`Glob`], [`Any`] and [`walk::IgnoreList`] take what is built. The README
//! of this crate lists its differences from wax 0.7.0.

#![warn(missing_docs, unsafe_op_in_unsafe_fn)]

mod any;
mod comparing;
mod error;
mod glob;
mod ignore;
mod path;
pub mod query;
mod sys;
pub mod walk;
mod warning;

use std::borrow::Cow;

use crate::query::{DepthVariance, TextVariance, When};

pub use crate::any::{any, Any};
pub use crate::comparing::{compare, difference, overlap, Comparison, MOST_STATES};
pub use crate::error::{BuildError, GlobError};
pub use crate::glob::Glob;
pub use crate::path::{CandidatePath, MatchedText};
pub use crate::warning::Warning;

#[cfg(doctest)]
#[doc = include_str!("../README.md")]
struct Readme;

/// The traits whose methods most programs call.
pub mod prelude {
    pub use crate::query::LocatedError as _;
    pub use crate::walk::{Entry as _, FileIterator as _, PathExt as _};
    pub use crate::Program as _;
}

/// A pattern: an expression, a [`Glob`], a set, or the result of building one of these.
pub trait Pattern<'t>: Sized {
    /// The error of a pattern that isn't built.
    type Error: Into<BuildError>;

    /// Returns the globs of the pattern.
    ///
    /// # Errors
    ///
    /// Returns the error of an expression, or the one that the pattern is.
    fn into_globs(self) -> Result<Vec<Glob<'t>>, Self::Error>;
}

impl<'t> Pattern<'t> for &'t str {
    type Error = BuildError;

    fn into_globs(self) -> Result<Vec<Glob<'t>>, BuildError> {
        Ok(vec![Glob::new(self)?])
    }
}

impl<'t, T: Pattern<'t>> Pattern<'t> for Result<T, BuildError> {
    type Error = BuildError;

    fn into_globs(self) -> Result<Vec<Glob<'t>>, BuildError> {
        self?.into_globs().map_err(Into::into)
    }
}

/// A pattern that is built: a [`Glob`] or a set.
pub trait Program<'t>: Pattern<'t, Error = std::convert::Infallible> {
    /// Returns whether the pattern matches the path.
    fn is_match<'p>(&self, path: impl Into<CandidatePath<'p>>) -> bool;

    /// Returns the match, with what tokens capture, if the pattern matches the path.
    fn matched<'p>(&self, path: &'p CandidatePath<'_>) -> Option<MatchedText<'p>>;

    /// Returns how many components matches have.
    fn depth(&self) -> DepthVariance;

    /// Returns the text of all matches, if it is the same.
    fn text(&self) -> TextVariance<'t>;

    /// Returns `Always` if every match begins with `/`.
    fn has_root(&self) -> When;

    /// Returns `Always` if everything below a match matches, too.
    fn is_exhaustive(&self) -> When;
}

/// Returns an expression that matches only this text, if the text has no backslash.
///
/// ```
/// assert_eq!(wax::escape("a[1].txt"), r"a\[1\].txt");
/// ```
#[must_use]
pub fn escape(unescaped: &str) -> Cow<'_, str> {
    if unescaped.contains(is_meta_character) {
        sys::escaped(unescaped).into()
    } else {
        unescaped.into()
    }
}

/// Returns whether a literal needs a backslash before this character.
pub const fn is_meta_character(x: char) -> bool {
    matches!(
        x,
        '?' | '*' | '$' | ':' | '<' | '>' | '(' | ')' | '[' | ']' | '{' | '}' | ','
    )
}

/// Returns whether this character needs a backslash before it only in a class.
pub const fn is_contextual_meta_character(x: char) -> bool {
    x == '-'
}
