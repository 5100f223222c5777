//! Globs.

use std::borrow::Cow;
use std::convert::Infallible;
use std::fmt::{self, Debug, Display, Formatter};
use std::path::PathBuf;
use std::str::FromStr;
use std::sync::Arc;

use crate::query::{
    depth_between, only_text, when, CapturingToken, DepthVariance, TextVariance, When,
};
use crate::sys::{self, Compared, Handle};
use crate::{BuildError, CandidatePath, Comparison, MatchedText, Pattern, Program, Warning};

/// A glob: build it once, to match many paths.
///
/// A clone uses the same handle of the C library. Threads may share a glob, but match one after another by it; if they
/// are to match at the same time, build a glob for each.
///
/// ```
/// use std::path::Path;
/// use wax::{Glob, Program};
///
/// let glob = Glob::new("src/**/*.{c,rs}").unwrap();
/// assert!(glob.is_match("src/net/tcp.c"));
/// assert!(!glob.is_match(Path::new("README.md")));
/// ```
#[derive(Clone)]
pub struct Glob<'t> {
    expression: Cow<'t, str>,
    /// whether this is the rest of a partition, and not the whole expression
    is_rest: bool,
    handle: Arc<Handle<sys::Glob>>,
}

impl<'t> Glob<'t> {
    /// Builds a glob.
    ///
    /// # Errors
    ///
    /// Returns an error if the expression can't be parsed, breaks a rule, or is too large.
    pub fn new(expression: &'t str) -> Result<Self, BuildError> {
        let handle = Handle::<sys::Glob>::new(expression)
            .map_err(|failure| BuildError::of_expression(expression, &failure))?;
        Ok(Glob {
            expression: expression.into(),
            is_rest: false,
            handle: Arc::new(handle),
        })
    }

    /// Returns the glob that matches only the empty path.
    pub fn empty() -> Self {
        Glob::new("").expect("the empty expression has no error")
    }

    /// Returns the glob that matches every path.
    pub fn tree() -> Self {
        Glob::new("**").expect("`**` has no error")
    }

    /// Splits the glob into the prefix with which every match begins, and a glob that matches what comes after it. The second
    /// is `None` if the prefix is the only match.
    ///
    /// ```
    /// use std::path::Path;
    /// use wax::{Glob, Program};
    ///
    /// let (prefix, rest) = Glob::new("src/net/*.rs").unwrap().partition();
    /// assert_eq!(prefix, Path::new("src/net/"));
    /// let rest = rest.unwrap();
    /// assert!(rest.is_match("tcp.rs"));
    /// assert_eq!(rest.to_string(), "*.rs");
    /// ```
    pub fn partition(self) -> (PathBuf, Option<Self>) {
        let (prefix, rest) = self.handle.partition();
        let rest = rest.map(|handle| Glob {
            expression: handle.expression().into(),
            is_rest: true,
            handle: Arc::new(handle),
        });
        (prefix.into(), rest)
    }

    /// Splits the glob as [`partition`](Self::partition) does, with the empty glob if there is no rest.
    pub fn partition_or_empty(self) -> (PathBuf, Self) {
        let (prefix, rest) = self.partition();
        (prefix, rest.unwrap_or_else(Glob::empty))
    }

    /// Splits the glob as [`partition`](Self::partition) does, with the glob `**` if there is no rest.
    pub fn partition_or_tree(self) -> (PathBuf, Self) {
        let (prefix, rest) = self.partition();
        (prefix, rest.unwrap_or_else(Glob::tree))
    }

    /// Returns the glob with an expression of its own.
    pub fn into_owned(self) -> Glob<'static> {
        Glob {
            expression: Cow::Owned(self.expression.into_owned()),
            is_rest: self.is_rest,
            handle: self.handle,
        }
    }

    /// Returns whether this is the glob of the empty expression, which matches only the empty path.
    ///
    /// ```
    /// use wax::Glob;
    ///
    /// assert!(Glob::empty().is_empty());
    /// assert!(!Glob::new("*").unwrap().is_empty());
    /// ```
    pub fn is_empty(&self) -> bool {
        self.expression.is_empty()
    }

    /// Returns whether the text of a component is `.` or `..`. Such a component matches only this text, and leads to no other folder.
    ///
    /// ```
    /// use wax::Glob;
    ///
    /// assert!(Glob::new("../src/**").unwrap().has_semantic_literals());
    /// assert!(!Glob::new("src/..*").unwrap().has_semantic_literals());
    /// ```
    pub fn has_semantic_literals(&self) -> bool {
        self.handle.has_semantic_literals()
    }

    /// Returns the tokens that capture, in order: each class, wildcard, alternation and repetition that isn't inside another
    /// token.
    ///
    /// ```
    /// use wax::Glob;
    ///
    /// let glob = Glob::new("src/**/*.{c,rs}").unwrap();
    /// let spans: Vec<_> = glob.captures().map(|token| token.span()).collect();
    /// assert_eq!(spans, [(3, 4), (7, 1), (9, 6)]);
    /// ```
    pub fn captures(&self) -> impl Clone + Iterator<Item = CapturingToken> {
        let spans = self.handle.capturing();
        (1..)
            .zip(spans)
            .map(|(index, span)| CapturingToken::new(index, span))
    }

    /// Returns the warnings: one for each component that is `.` or `..`, and a last one if the glob ends with a `/`.
    ///
    /// ```
    /// use wax::prelude::*;
    /// use wax::Glob;
    ///
    /// let glob = Glob::new("../src/").unwrap();
    /// let warnings = glob.diagnose();
    /// assert_eq!(warnings[0].span(), (0, 2));
    /// assert_eq!(
    ///     warnings[0].to_string(),
    ///     "`..` is matched as a text and stands for no folder",
    /// );
    /// assert_eq!(warnings[1].span(), (6, 1));
    /// ```
    #[must_use]
    pub fn diagnose(&self) -> Vec<Warning> {
        let warnings = self.handle.warnings().into_iter();
        warnings
            .map(|(span, kind)| Warning::new(span, kind))
            .collect()
    }

    /// Finds a shortest path that this glob and another one match, among the same paths and within the same limit as
    /// [`overlap`](crate::overlap) does of their expressions. Other threads that match by one of the two wait until it ends.
    ///
    /// ```
    /// use wax::{Comparison, Glob, MOST_STATES};
    ///
    /// let (_, rest) = Glob::new("src/*/mod.rs").unwrap().partition();
    /// let other = Glob::new("net/**").unwrap();
    /// let found = rest.unwrap().overlap(&other, MOST_STATES).unwrap();
    /// assert_eq!(found, Comparison::Text("net/mod.rs".to_string()));
    /// ```
    ///
    /// # Errors
    ///
    /// Returns an error if memory ran out.
    pub fn overlap(&self, other: &Glob<'_>, most_states: usize) -> Result<Comparison, BuildError> {
        let everything;
        let other = if Arc::ptr_eq(&self.handle, &other.handle) {
            // (the library takes no handle twice; what a glob has in common with itself, it has in common with `**`)
            everything = Glob::new("**")?;
            &everything.handle
        } else {
            &other.handle
        };
        let found = self.handle.compared(sys::Glob::OVERLAP, other, most_states);
        found.map_err(BuildError::without_place)
    }

    /// Finds a shortest path that this glob matches and another one doesn't, as [`Glob::overlap`] finds one that both match.
    ///
    /// ```
    /// use wax::{Comparison, Glob, MOST_STATES};
    ///
    /// let (go, sources) = (Glob::new("src/*.go").unwrap(), Glob::new("src/**/*.{go,rs}").unwrap());
    /// assert_eq!(go.difference(&sources, MOST_STATES).unwrap(), Comparison::Nothing);
    /// let found = sources.difference(&go, MOST_STATES).unwrap();
    /// assert_eq!(found, Comparison::Text("src/.rs".to_string()));
    /// ```
    ///
    /// # Errors
    ///
    /// Returns an error if memory ran out.
    pub fn difference(
        &self,
        other: &Glob<'_>,
        most_states: usize,
    ) -> Result<Comparison, BuildError> {
        self.differs(sys::Glob::DIFFERENCE, other, most_states)
    }

    /// Finds a shortest path that exactly one of both globs matches, as [`Glob::overlap`] finds one that both match. If there is
    /// none, both match the same.
    ///
    /// ```
    /// use wax::{Comparison, Glob, MOST_STATES};
    ///
    /// let (one, other) = (Glob::new("**/{a,b}").unwrap(), Glob::new("{**/a,**/b}").unwrap());
    /// assert_eq!(one.compare(&other, MOST_STATES).unwrap(), Comparison::Nothing);
    /// ```
    ///
    /// # Errors
    ///
    /// Returns an error if memory ran out.
    pub fn compare(&self, other: &Glob<'_>, most_states: usize) -> Result<Comparison, BuildError> {
        self.differs(sys::Glob::COMPARE, other, most_states)
    }

    fn differs(
        &self,
        call: sys::CompareHandles<sys::Glob>,
        other: &Glob<'_>,
        most_states: usize,
    ) -> Result<Comparison, BuildError> {
        if Arc::ptr_eq(&self.handle, &other.handle) {
            return Ok(Comparison::Nothing);
        }
        let found = self.handle.compared(call, &other.handle, most_states);
        found.map_err(BuildError::without_place)
    }

    pub(crate) fn handle(&self) -> &Arc<Handle<sys::Glob>> {
        &self.handle
    }

    /// Returns whether the glob is the rest of another.
    pub(crate) fn is_rest(&self) -> bool {
        self.is_rest
    }

    /// Returns the expression, unless the glob is the rest of another.
    pub(crate) fn whole_expression(&self) -> Option<&str> {
        (!self.is_rest).then_some(&*self.expression)
    }
}

impl Debug for Glob<'_> {
    fn fmt(&self, f: &mut Formatter<'_>) -> fmt::Result {
        f.debug_tuple("Glob").field(&self.expression).finish()
    }
}

impl Display for Glob<'_> {
    fn fmt(&self, f: &mut Formatter<'_>) -> fmt::Result {
        f.write_str(&self.expression)
    }
}

impl FromStr for Glob<'static> {
    type Err = BuildError;

    fn from_str(expression: &str) -> Result<Self, BuildError> {
        Glob::new(expression).map(Glob::into_owned)
    }
}

impl<'t> TryFrom<&'t str> for Glob<'t> {
    type Error = BuildError;

    fn try_from(expression: &'t str) -> Result<Self, BuildError> {
        Glob::new(expression)
    }
}

impl<'t> Pattern<'t> for Glob<'t> {
    type Error = Infallible;

    fn into_globs(self) -> Result<Vec<Glob<'t>>, Infallible> {
        Ok(vec![self])
    }
}

impl<'t> Program<'t> for Glob<'t> {
    fn is_match<'p>(&self, path: impl Into<CandidatePath<'p>>) -> bool {
        self.handle.is_match(path.into().as_ref())
    }

    fn matched<'p>(&self, path: &'p CandidatePath<'_>) -> Option<MatchedText<'p>> {
        let path = path.as_ref();
        let spans = self.handle.spans(path)?;
        Some(MatchedText::new(path, spans))
    }

    fn depth(&self) -> DepthVariance {
        let facts = self.handle.facts();
        depth_between(facts.least_depth, facts.greatest_depth)
    }

    fn text(&self) -> TextVariance<'t> {
        only_text(self.handle.text())
    }

    fn has_root(&self) -> When {
        when(self.handle.facts().has_root)
    }

    fn is_exhaustive(&self) -> When {
        when(self.handle.facts().is_exhaustive)
    }
}
