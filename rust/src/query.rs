//! What is known of all paths that a pattern matches, and where an expression has an error.

use std::borrow::Cow;
use std::fmt::Display;
use std::num::NonZeroUsize;
use std::path::{Path, PathBuf};

pub use Boundedness::{Bounded, Unbounded};

/// A part of an expression: where it begins, and how long it is, in bytes.
pub type Span = (usize, usize);

/// A token that captures: the index of its capture, and its place in the expression.
#[derive(Clone, Copy, Debug)]
pub struct CapturingToken {
    index: usize,
    span: Span,
}

impl CapturingToken {
    pub(crate) fn new(index: usize, span: Span) -> Self {
        CapturingToken { index, span }
    }

    /// Returns the index of the capture, from 1.
    pub fn index(&self) -> usize {
        self.index
    }

    /// Returns the place of the token.
    pub fn span(&self) -> Span {
        self.span
    }
}

/// An error with a place in an expression, or a warning.
pub trait LocatedError: Display {
    /// Returns the place.
    fn span(&self) -> Span;
}

/// A bound, or that there is none.
#[derive(Clone, Copy, Debug, Eq, Hash, PartialEq)]
pub enum Boundedness<T> {
    /// There is this bound.
    Bounded(T),
    /// There is no bound.
    Unbounded,
}

impl<T> Boundedness<T> {
    /// Returns the bound if there is one.
    pub fn bounded(self) -> Option<T> {
        match self {
            Bounded(bound) => Some(bound),
            Unbounded => None,
        }
    }

    /// Applies a function to the bound if there is one.
    pub fn map_bounded<U, F: FnOnce(T) -> U>(self, f: F) -> Boundedness<U> {
        match self {
            Bounded(bound) => Bounded(f(bound)),
            Unbounded => Unbounded,
        }
    }

    /// Borrows the bound.
    pub fn as_ref(&self) -> Boundedness<&T> {
        match self {
            Bounded(bound) => Bounded(bound),
            Unbounded => Unbounded,
        }
    }

    /// Returns whether there is a bound.
    pub fn is_bounded(&self) -> bool {
        matches!(self, Bounded(_))
    }

    /// Returns whether there is no bound.
    pub fn is_unbounded(&self) -> bool {
        !self.is_bounded()
    }
}

impl<T> From<T> for Boundedness<T> {
    fn from(bound: T) -> Self {
        Bounded(bound)
    }
}

/// A range of numbers, of which either end may be open.
pub type VariantRange = Boundedness<BoundedVariantRange>;

impl VariantRange {
    /// Returns the least number if it isn't 0.
    pub fn lower(&self) -> Boundedness<NonZeroUsize> {
        match self {
            Bounded(range) => range.lower(),
            Unbounded => Unbounded,
        }
    }

    /// Returns the greatest number if there is one.
    pub fn upper(&self) -> Boundedness<NonZeroUsize> {
        match self {
            Bounded(range) => range.upper(),
            Unbounded => Unbounded,
        }
    }
}

/// A range of numbers with a bound at one end or both.
#[derive(Clone, Copy, Debug, Eq, PartialEq)]
pub struct BoundedVariantRange {
    lower: Boundedness<NonZeroUsize>,
    upper: Boundedness<NonZeroUsize>,
}

impl BoundedVariantRange {
    /// Returns the least number if it isn't 0.
    pub fn lower(&self) -> Boundedness<NonZeroUsize> {
        self.lower
    }

    /// Returns the greatest number if there is one.
    pub fn upper(&self) -> Boundedness<NonZeroUsize> {
        self.upper
    }
}

/// Something that all matches have in common, or what is known of it if they differ.
#[derive(Clone, Copy, Debug, Eq, PartialEq)]
pub enum Variance<T, B> {
    /// All matches have this.
    Invariant(T),
    /// Matches differ within this bound.
    Variant(B),
}

impl<T, B> Variance<T, B> {
    /// Returns what all matches have, if they don't differ.
    pub fn invariant(self) -> Option<T> {
        match self {
            Variance::Invariant(common) => Some(common),
            Variance::Variant(_) => None,
        }
    }

    /// Returns the bound if matches differ.
    pub fn variant(self) -> Option<B> {
        match self {
            Variance::Invariant(_) => None,
            Variance::Variant(bound) => Some(bound),
        }
    }

    /// Borrows what is in it.
    pub fn as_ref(&self) -> Variance<&T, &B> {
        match self {
            Variance::Invariant(common) => Variance::Invariant(common),
            Variance::Variant(bound) => Variance::Variant(bound),
        }
    }

    /// Returns whether all matches have something in common.
    pub fn is_invariant(&self) -> bool {
        matches!(self, Variance::Invariant(_))
    }

    /// Returns whether matches differ.
    pub fn is_variant(&self) -> bool {
        !self.is_invariant()
    }
}

/// How many components the matches of a pattern have.
pub type DepthVariance = Variance<usize, VariantRange>;

/// What the C library writes in place of a greatest number if there is none.
const NO_GREATEST: usize = usize::MAX;

/// Returns the depth between two numbers, of which the second may be `NO_GREATEST`.
pub(crate) fn depth_between(least: usize, greatest: usize) -> DepthVariance {
    if least == greatest {
        return Variance::Invariant(least);
    }
    let bound = |number| NonZeroUsize::new(number).map_or(Unbounded, Bounded);
    let lower = bound(least);
    let upper = bound(if greatest == NO_GREATEST { 0 } else { greatest });
    Variance::Variant(if lower.is_unbounded() && upper.is_unbounded() {
        Unbounded
    } else {
        Bounded(BoundedVariantRange { lower, upper })
    })
}

/// The text of all matches, if it is the same.
pub type TextVariance<'t> = Variance<Cow<'t, str>, ()>;

/// Returns the text of all matches, if the C library has found it.
pub(crate) fn only_text<'t>(text: Option<String>) -> TextVariance<'t> {
    text.map_or(Variance::Variant(()), |text| {
        Variance::Invariant(text.into())
    })
}

impl TextVariance<'_> {
    /// Returns the text as a path if all matches have it.
    pub fn into_path_buf(self) -> Option<PathBuf> {
        Some(PathBuf::from(self.invariant()?.into_owned()))
    }

    /// Borrows the text as a path if all matches have it.
    pub fn as_path(&self) -> Option<&Path> {
        self.as_ref()
            .invariant()
            .map(|text| Path::new(text.as_ref()))
    }
}

/// Whether something holds for the matches of a pattern. Only `Always` is a promise.
#[derive(Clone, Copy, Debug, Eq, Hash, PartialEq)]
pub enum When {
    /// It holds for every match.
    Always,
    /// It is expected of some matches.
    Sometimes,
    /// It is expected of no match.
    Never,
}

/// Converts a number of `wax_facts`.
pub(crate) fn when(number: i32) -> When {
    match number {
        2 => When::Always,
        1 => When::Sometimes,
        _ => When::Never,
    }
}

impl When {
    /// Returns the less certain of two.
    pub fn and(self, other: Self) -> Self {
        if self.rank() < other.rank() {
            self
        } else {
            other
        }
    }

    /// Returns the more certain of two.
    pub fn or(self, other: Self) -> Self {
        if self.rank() > other.rank() {
            self
        } else {
            other
        }
    }

    /// Returns both if they are equal, and otherwise `Sometimes`.
    pub fn certainty(self, other: Self) -> Self {
        if self == other {
            self
        } else {
            When::Sometimes
        }
    }

    fn rank(self) -> u8 {
        match self {
            When::Never => 0,
            When::Sometimes => 1,
            When::Always => 2,
        }
    }

    /// Returns whether this is `Always`.
    pub fn is_always(&self) -> bool {
        *self == When::Always
    }

    /// Returns whether this is `Sometimes`.
    pub fn is_sometimes(&self) -> bool {
        *self == When::Sometimes
    }

    /// Returns whether this is `Never`.
    pub fn is_never(&self) -> bool {
        *self == When::Never
    }

    /// Returns whether this isn't `Never`.
    pub fn is_maybe_true(&self) -> bool {
        !self.is_never()
    }

    /// Returns whether this isn't `Always`.
    pub fn is_maybe_false(&self) -> bool {
        !self.is_always()
    }
}

impl From<bool> for When {
    fn from(holds: bool) -> Self {
        When::from(Some(holds))
    }
}

impl From<Option<bool>> for When {
    fn from(holds: Option<bool>) -> Self {
        match holds {
            Some(true) => When::Always,
            Some(false) => When::Never,
            None => When::Sometimes,
        }
    }
}

impl From<When> for Option<bool> {
    fn from(when: When) -> Self {
        match when {
            When::Always => Some(true),
            When::Sometimes => None,
            When::Never => Some(false),
        }
    }
}

#[cfg(test)]
mod tests {
    use super::*;
    use When::{Always, Never, Sometimes};

    #[test]
    fn combinations_of_when() {
        for (a, b, and, or, certainty) in [
            (Always, Always, Always, Always, Always),
            (Always, Sometimes, Sometimes, Always, Sometimes),
            (Always, Never, Never, Always, Sometimes),
            (Sometimes, Sometimes, Sometimes, Sometimes, Sometimes),
            (Sometimes, Never, Never, Sometimes, Sometimes),
            (Never, Never, Never, Never, Never),
        ] {
            for (a, b) in [(a, b), (b, a)] {
                assert_eq!(
                    (a.and(b), a.or(b), a.certainty(b)),
                    (and, or, certainty),
                    "{a:?} {b:?}"
                );
            }
        }
    }

    #[test]
    fn ranges_of_depths() {
        let numbers = |depth: DepthVariance| {
            let range = depth.variant().unwrap();
            let number = |bound: Boundedness<NonZeroUsize>| bound.bounded().map(NonZeroUsize::get);
            (
                range.is_bounded(),
                number(range.lower()),
                number(range.upper()),
            )
        };
        assert_eq!(depth_between(2, 2), Variance::Invariant(2));
        assert_eq!(numbers(depth_between(0, NO_GREATEST)), (false, None, None));
        assert_eq!(
            numbers(depth_between(1, NO_GREATEST)),
            (true, Some(1), None)
        );
        assert_eq!(numbers(depth_between(0, 3)), (true, None, Some(3)));
    }
}
