//! Sets of patterns.

use std::convert::Infallible;
use std::fmt::{self, Debug, Formatter};
use std::sync::Arc;

use crate::query::{depth_between, only_text, when, DepthVariance, TextVariance, When};
use crate::sys::{self, Compared, Facts, Handle};
use crate::{BuildError, CandidatePath, Comparison, Glob, MatchedText, Pattern, Program};

/// A set of patterns, built by [`any`]. It matches a path if one of them does.
#[derive(Clone)]
pub struct Any<'t> {
    globs: Vec<Glob<'t>>,
    /// the set of those that have an expression
    set: Arc<Handle<sys::Set>>,
}

/// Builds a set of expressions, of globs, of sets, or of results of building these.
///
/// ```
/// use wax::{any, Program};
///
/// let pictures = any(["**/*.png", "**/*.{jpg,jpeg}"]).unwrap();
/// assert!(pictures.is_match("a/logo.jpeg"));
/// assert!(!pictures.is_match("a/logo.svg"));
/// ```
///
/// # Errors
///
/// Returns the error of the first pattern that has one, or that the set is too large.
pub fn any<'t, I>(patterns: I) -> Result<Any<'t>, BuildError>
where
    I: IntoIterator,
    I::Item: Pattern<'t>,
{
    let mut globs = Vec::new();
    for pattern in patterns {
        globs.extend(pattern.into_globs().map_err(Into::into)?);
    }
    let expressions: Vec<_> = globs.iter().filter_map(Glob::whole_expression).collect();
    let set = Handle::<sys::Set>::new(&expressions).map_err(BuildError::without_place)?;
    Ok(Any {
        globs,
        set: Arc::new(set),
    })
}

impl<'t> Any<'t> {
    /// Finds a shortest path that this set and another one match, among the same paths and within the same limit as
    /// [`overlap`](crate::overlap) does of two expressions. Other threads that match by one of the two wait until it ends.
    ///
    /// Rests of partitions are compared one by one, each within the limit. The result is `Unknown` if one of these is.
    ///
    /// ```
    /// use wax::{any, Comparison, MOST_STATES};
    ///
    /// let sources = any(["src/**/*.go", "src/**/*.rs"]).unwrap();
    /// let tests = any(["docs/**", "**/test_*"]).unwrap();
    /// let found = sources.overlap(&tests, MOST_STATES).unwrap();
    /// assert_eq!(found, Comparison::Text("src/test_.go".to_string()));
    /// ```
    ///
    /// # Errors
    ///
    /// Returns an error if memory ran out.
    pub fn overlap(&self, other: &Any<'_>, most_states: usize) -> Result<Comparison, BuildError> {
        let everything;
        let set = if Arc::ptr_eq(&self.set, &other.set) {
            // (the library takes no handle twice; what a set has in common with itself, it has in common with `**`)
            everything = any(["**"])?;
            &everything.set
        } else {
            &other.set
        };
        let found = self.set.compared(sys::Set::OVERLAP, set, most_states);
        let mut found = found.map_err(BuildError::without_place)?;
        for rest in self.rests() {
            for glob in &other.globs {
                found = found.shorter(rest.overlap(glob, most_states)?);
            }
        }
        for rest in other.rests() {
            for glob in self.globs.iter().filter(|glob| !glob.is_rest()) {
                found = found.shorter(glob.overlap(rest, most_states)?);
            }
        }
        Ok(found)
    }

    /// Finds a shortest path that this set matches and another one doesn't, among the same paths and within the same limit as
    /// [`Any::overlap`] finds one that both match. The result is `Unknown` if one of the sets has the rest of a partition.
    ///
    /// ```
    /// use wax::{any, Comparison, MOST_STATES};
    ///
    /// let (old, new) = (any(["*.rs", "*.md"]).unwrap(), any(["*.{rs,toml}"]).unwrap());
    /// let found = old.difference(&new, MOST_STATES).unwrap();
    /// assert_eq!(found, Comparison::Text(".md".to_string()));
    /// ```
    ///
    /// # Errors
    ///
    /// Returns an error if memory ran out.
    pub fn difference(
        &self,
        other: &Any<'_>,
        most_states: usize,
    ) -> Result<Comparison, BuildError> {
        self.differs(sys::Set::DIFFERENCE, other, most_states)
    }

    /// Finds a shortest path that exactly one of both sets matches, as [`Any::difference`] finds one that only the first one
    /// matches. If there is none, both match the same.
    ///
    /// ```
    /// use wax::{any, Comparison, MOST_STATES};
    ///
    /// let (old, new) = (any(["*.rs", "*.md"]).unwrap(), any(["*.{md,rs}"]).unwrap());
    /// assert_eq!(old.compare(&new, MOST_STATES).unwrap(), Comparison::Nothing);
    /// ```
    ///
    /// # Errors
    ///
    /// Returns an error if memory ran out.
    pub fn compare(&self, other: &Any<'_>, most_states: usize) -> Result<Comparison, BuildError> {
        self.differs(sys::Set::COMPARE, other, most_states)
    }

    fn differs(
        &self,
        call: sys::CompareHandles<sys::Set>,
        other: &Any<'_>,
        most_states: usize,
    ) -> Result<Comparison, BuildError> {
        if Arc::ptr_eq(&self.set, &other.set) {
            return Ok(Comparison::Nothing);
        }
        if self.rests().chain(other.rests()).next().is_some() {
            return Ok(Comparison::Unknown);
        }
        let found = self.set.compared(call, &other.set, most_states);
        found.map_err(BuildError::without_place)
    }

    pub(crate) fn globs(&self) -> &[Glob<'t>] {
        &self.globs
    }

    pub(crate) fn set(&self) -> &Arc<Handle<sys::Set>> {
        &self.set
    }

    /// Calls a function for the handle of the set, if a pattern is in it.
    fn if_in_set<R>(&self, call: impl FnOnce(&Handle<sys::Set>) -> R) -> Option<R> {
        let has_some = self.globs.iter().any(|glob| !glob.is_rest());
        has_some.then(|| call(&self.set))
    }

    /// Returns what is known of the patterns in the set, if there are some, and of each of the others.
    fn facts(&self) -> impl Iterator<Item = Facts> + '_ {
        let rests = self.rests().map(|glob| glob.handle().facts());
        self.if_in_set(Handle::<sys::Set>::facts)
            .into_iter()
            .chain(rests)
    }

    /// Returns the patterns that aren't in the set.
    pub(crate) fn rests(&self) -> impl Iterator<Item = &Glob<'t>> {
        self.globs.iter().filter(|glob| glob.is_rest())
    }
}

impl Debug for Any<'_> {
    fn fmt(&self, f: &mut Formatter<'_>) -> fmt::Result {
        f.debug_tuple("Any").field(&self.globs).finish()
    }
}

impl<'t> Pattern<'t> for Any<'t> {
    type Error = Infallible;

    fn into_globs(self) -> Result<Vec<Glob<'t>>, Infallible> {
        Ok(self.globs)
    }
}

impl<'t> Program<'t> for Any<'t> {
    fn is_match<'p>(&self, path: impl Into<CandidatePath<'p>>) -> bool {
        let path = path.into();
        self.set.is_match(path.as_ref()) || self.rests().any(|glob| glob.is_match(path.as_ref()))
    }

    /// Returns the match. The whole set is its only capture.
    fn matched<'p>(&self, path: &'p CandidatePath<'_>) -> Option<MatchedText<'p>> {
        let path = path.as_ref();
        self.is_match(path)
            .then(|| MatchedText::new(path, vec![(0, path.len())]))
    }

    fn depth(&self) -> DepthVariance {
        let ends = self.facts().map(|it| (it.least_depth, it.greatest_depth));
        let (least, greatest) = ends
            .reduce(|a, b| (a.0.min(b.0), a.1.max(b.1)))
            .unwrap_or((0, 0));
        depth_between(least, greatest)
    }

    fn text(&self) -> TextVariance<'t> {
        let rests = self.rests().map(Glob::text);
        let mut texts = self
            .if_in_set(|set| only_text(set.text()))
            .into_iter()
            .chain(rests);
        match texts.next() {
            Some(first) if texts.all(|text| text == first) => first,
            _ => TextVariance::Variant(()),
        }
    }

    fn has_root(&self) -> When {
        of_all(self.facts().map(|it| when(it.has_root)))
    }

    fn is_exhaustive(&self) -> When {
        of_all(self.facts().map(|it| when(it.is_exhaustive)))
    }
}

/// Returns what holds of all patterns, or `Sometimes` if they differ.
fn of_all(patterns: impl Iterator<Item = When>) -> When {
    patterns.reduce(When::certainty).unwrap_or(When::Never)
}
