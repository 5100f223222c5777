//! Why a pattern isn't built, or a walk fails.

use std::convert::Infallible;
use std::error::Error;
use std::fmt::{self, Display, Formatter};

use crate::query::{LocatedError, Span};
use crate::sys::{self, Failure};
use crate::walk::WalkError;

/// The error of an expression that isn't built.
///
/// ```
/// use wax::Glob;
///
/// let error = Glob::new("a//b").unwrap_err();
/// assert_eq!(
///     error.to_string(),
///     "malformed glob expression: adjacent component boundaries `/` or `**`",
/// );
/// for location in error.locations() {
///     assert_eq!(location.span(), (1, 2));
///     assert_eq!(location.to_string(), "here");
/// }
/// ```
#[derive(Clone, Debug)]
pub struct BuildError {
    number: i32,
    location: Option<Location>,
}

impl BuildError {
    /// Returns the place of the error: one if the expression can't be parsed or breaks a rule, and none if it is too large.
    pub fn locations(&self) -> impl Iterator<Item = &dyn LocatedError> {
        self.location.iter().map(|it| it as &dyn LocatedError)
    }

    pub(crate) fn of_expression(expression: &str, failure: &Failure) -> Self {
        BuildError {
            number: failure.number,
            location: (failure.number < 9).then(|| Location {
                label: label_of(expression),
                span: failure.span,
            }),
        }
    }

    pub(crate) fn without_place(number: i32) -> Self {
        BuildError {
            number,
            location: None,
        }
    }
}

/// Returns how the C library labels the place of an error, which it draws in the line below the expression.
fn label_of(expression: &str) -> String {
    let picture = sys::picture(expression);
    let marked = picture.lines().nth(1).unwrap_or_default();
    marked
        .trim_start()
        .trim_start_matches('^')
        .trim_start()
        .to_string()
}

impl Display for BuildError {
    fn fmt(&self, f: &mut Formatter<'_>) -> fmt::Result {
        let rule = match self.number {
            1 => return f.write_str("failed to parse glob expression"),
            2 => "adjacent component boundaries `/` or `**`",
            3 => "incompatible repetition bounds",
            4 => "singular tree wildcard `**` in branch",
            5 => "adjacent zero-or-more wildcards `*` or `$`",
            6 => "uncertain or overlapping roots in branch",
            7 => "singular zero-or-more wildcard `*` or `$` in branch",
            8 => "oversized invariant expression",
            9 => return f.write_str("failed to compile glob: oversized program"),
            10 => return f.write_str("no memory"),
            number => return write!(f, "error {number}"),
        };
        write!(f, "malformed glob expression: {rule}")
    }
}

impl Error for BuildError {}

impl From<Infallible> for BuildError {
    fn from(never: Infallible) -> Self {
        match never {}
    }
}

/// An error of this crate, for a function that builds patterns and walks.
#[derive(Debug)]
pub enum GlobError {
    /// A pattern isn't built.
    Build(BuildError),
    /// Something couldn't be read.
    Walk(WalkError),
}

impl Display for GlobError {
    fn fmt(&self, f: &mut Formatter<'_>) -> fmt::Result {
        match self {
            GlobError::Build(error) => Display::fmt(error, f),
            GlobError::Walk(error) => Display::fmt(error, f),
        }
    }
}

impl Error for GlobError {}

impl From<BuildError> for GlobError {
    fn from(error: BuildError) -> Self {
        GlobError::Build(error)
    }
}

impl From<WalkError> for GlobError {
    fn from(error: WalkError) -> Self {
        GlobError::Walk(error)
    }
}

/// The place of an error, with its label.
#[derive(Clone, Debug)]
struct Location {
    label: String,
    span: Span,
}

impl Display for Location {
    fn fmt(&self, f: &mut Formatter<'_>) -> fmt::Result {
        f.write_str(&self.label)
    }
}

impl LocatedError for Location {
    fn span(&self) -> Span {
        self.span
    }
}
