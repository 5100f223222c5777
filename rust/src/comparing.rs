//! Comparing two expressions, and what is found of two patterns.

use crate::sys::{self, Compare};
use crate::BuildError;

/// The usual limit of a comparison. Its states then take at most 64 MiB.
pub const MOST_STATES: usize = 100_000;

/// What a comparison finds.
#[derive(Clone, Debug, Eq, Hash, PartialEq)]
pub enum Comparison {
    /// There is no such path.
    Nothing,
    /// Such a path. None is shorter.
    Text(String),
    /// Neither: it takes more states than the limit to decide.
    Unknown,
}

impl Comparison {
    /// Returns what is found in either of two places: `Unknown` if one of them is, or else the shorter path.
    pub(crate) fn shorter(self, other: Comparison) -> Comparison {
        match (self, other) {
            (Comparison::Nothing, found) | (found, Comparison::Nothing) => found,
            (Comparison::Text(one), Comparison::Text(other)) => {
                let is_shorter = other.chars().count() < one.chars().count();
                Comparison::Text(if is_shorter { other } else { one })
            }
            _ => Comparison::Unknown,
        }
    }
}

/// Finds a shortest path that both expressions match. [`Glob::overlap`](crate::Glob::overlap) and
/// [`Any::overlap`](crate::Any::overlap) take what is built.
///
/// Only paths as walks have them count: one or more names, with a `/` between each two. So there is none if all that one of the
/// expressions matches begins with `/`.
///
/// The search follows states to which paths lead. There may be many if several `?` or a long repetition follow a `*`. The result
/// is `Unknown` if it takes more than `most_states` of them, or more than 384 bytes for each of so many; [`MOST_STATES`] is a usual
/// limit.
///
/// ```
/// use wax::{overlap, Comparison, MOST_STATES};
///
/// let found = overlap("src/**/*.{go,rs}", "**/test_*", MOST_STATES).unwrap();
/// assert_eq!(found, Comparison::Text("src/test_.go".to_string()));
/// assert_eq!(overlap("*.rs", "src/**", MOST_STATES).unwrap(), Comparison::Nothing);
/// ```
///
/// # Errors
///
/// Returns the error of the first expression that has one, or that memory ran out.
pub fn overlap(first: &str, second: &str, most_states: usize) -> Result<Comparison, BuildError> {
    compared(sys::OVERLAP, first, second, most_states)
}

/// Finds a shortest path that the first expression matches and the second one doesn't, among the same paths and within the same
/// limit as [`overlap`]. If there is none, the second expression matches all that the first one does.
///
/// ```
/// use wax::{difference, Comparison, MOST_STATES};
///
/// let found = difference("src/*.go", "src/**/*.{go,rs}", MOST_STATES).unwrap();
/// assert_eq!(found, Comparison::Nothing);
/// ```
///
/// # Errors
///
/// Returns the errors of [`overlap`].
pub fn difference(first: &str, second: &str, most_states: usize) -> Result<Comparison, BuildError> {
    compared(sys::DIFFERENCE, first, second, most_states)
}

/// Finds a shortest path that exactly one of the expressions matches, among the same paths and within the same limit as
/// [`overlap`]. If there is none, both match the same.
///
/// ```
/// use wax::{compare, Comparison, MOST_STATES};
///
/// match compare("{src,tests}/**/*.rs", "{src,tests,benches}/**/*.rs", MOST_STATES).unwrap() {
///     Comparison::Text(path) => assert_eq!(path, "benches/.rs"),
///     found => panic!("{found:?}"),
/// }
/// ```
///
/// # Errors
///
/// Returns the errors of [`overlap`].
pub fn compare(first: &str, second: &str, most_states: usize) -> Result<Comparison, BuildError> {
    compared(sys::COMPARE, first, second, most_states)
}

fn compared(
    call: Compare,
    first: &str,
    second: &str,
    most_states: usize,
) -> Result<Comparison, BuildError> {
    sys::compared(call, first, second, most_states).map_err(|(which, failure)| match which {
        0 => BuildError::of_expression(first, &failure),
        1 => BuildError::of_expression(second, &failure),
        _ => BuildError::without_place(failure.number),
    })
}
