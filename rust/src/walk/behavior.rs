//! How deep a walk goes, and what it does at a link.

use std::fs::{self, Metadata};
use std::io;
use std::num::NonZeroUsize;
use std::path::Path;

use crate::query::DepthVariance;

/// Depths of at least this number.
#[derive(Clone, Copy, Debug, Eq, PartialEq)]
pub struct DepthMin(pub NonZeroUsize);

impl DepthMin {
    /// Returns the depths of at least `min`, or all depths if it is 0.
    pub fn from_min_or_unbounded(min: usize) -> DepthBehavior {
        NonZeroUsize::new(min).map_or(DepthBehavior::Unbounded, |min| DepthMin(min).into())
    }
}

impl From<NonZeroUsize> for DepthMin {
    fn from(min: NonZeroUsize) -> Self {
        DepthMin(min)
    }
}

impl From<DepthMin> for NonZeroUsize {
    fn from(min: DepthMin) -> Self {
        min.0
    }
}

impl TryFrom<usize> for DepthMin {
    type Error = ();

    fn try_from(min: usize) -> Result<Self, ()> {
        NonZeroUsize::new(min).map(DepthMin).ok_or(())
    }
}

/// Depths of at most this number.
#[derive(Clone, Copy, Debug, Eq, PartialEq)]
pub struct DepthMax(pub usize);

impl From<usize> for DepthMax {
    fn from(max: usize) -> Self {
        DepthMax(max)
    }
}

impl From<DepthMax> for usize {
    fn from(max: DepthMax) -> Self {
        max.0
    }
}

/// Depths from `min` to `min` plus `extent`.
#[derive(Clone, Copy, Debug, Eq, PartialEq)]
pub struct DepthMinMax {
    /// The least depth.
    pub min: NonZeroUsize,
    /// How many depths there are above the least one.
    pub extent: usize,
}

impl DepthMinMax {
    /// Returns the depths between two numbers, in either order and both included. If one of them is 0, these are the depths of
    /// at most the other.
    pub fn from_depths_or_max(p: usize, q: usize) -> DepthBehavior {
        let (least, greatest) = (p.min(q), p.max(q));
        DepthMinMax::between(least, greatest).unwrap_or_else(|| DepthMax(greatest).into())
    }

    /// Returns the greatest depth, or `usize::MAX` if the sum is greater than that.
    pub fn max(&self) -> NonZeroUsize {
        NonZeroUsize::new(self.min.get().saturating_add(self.extent)).unwrap_or(self.min)
    }

    /// Returns the depths from one number to another, if the first isn't 0 and isn't above the second.
    fn between(min: usize, max: usize) -> Option<DepthBehavior> {
        let extent = max.checked_sub(min)?;
        let min = NonZeroUsize::new(min)?;
        Some(DepthMinMax { min, extent }.into())
    }
}

/// The depths of the entries that a walk yields. The depth of an entry is the number of names that lead to it from the root
/// of the walk.
#[derive(Clone, Copy, Debug, Default, Eq, PartialEq)]
pub enum DepthBehavior {
    /// All depths.
    #[default]
    Unbounded,
    /// At least a number.
    Min(DepthMin),
    /// At most a number. A folder at this depth isn't opened.
    Max(DepthMax),
    /// Between two numbers.
    MinMax(DepthMinMax),
}

impl DepthBehavior {
    /// Returns the depths from `min` to `max`, each of which may be missing. Returns `None` if both are missing, if `min` is 0,
    /// or if `min` is above `max`.
    ///
    /// ```
    /// use wax::walk::{DepthBehavior, DepthMax};
    ///
    /// assert_eq!(DepthBehavior::bounded(None, 3), Some(DepthMax(3).into()));
    /// assert_eq!(DepthBehavior::bounded(4, 3), None);
    /// ```
    pub fn bounded(min: impl Into<Option<usize>>, max: impl Into<Option<usize>>) -> Option<Self> {
        match (min.into(), max.into()) {
            (None, None) => None,
            (None, Some(max)) => Some(DepthMax(max).into()),
            (Some(min), None) => DepthMin::try_from(min).ok().map(Into::into),
            (Some(min), Some(max)) => DepthMinMax::between(min, max),
        }
    }

    /// Adds the least depth of a pattern to both numbers, and then returns what [`bounded`](Self::bounded) does. Returns `None`
    /// if a sum is too large, too.
    pub fn bounded_at_depth_variance(
        min: impl Into<Option<usize>>,
        max: impl Into<Option<usize>>,
        depth: DepthVariance,
    ) -> Option<Self> {
        let least = match depth {
            DepthVariance::Invariant(depth) => depth,
            DepthVariance::Variant(range) => range.lower().bounded().map_or(0, Into::into),
        };
        let raised = |bound: Option<usize>| match bound {
            Some(bound) => bound.checked_add(least).map(Some),
            None => Some(None),
        };
        DepthBehavior::bounded(raised(min.into())?, raised(max.into())?)
    }

    /// Returns the least and the greatest depth.
    pub(crate) fn ends(self) -> (usize, usize) {
        match self {
            DepthBehavior::Unbounded => (0, usize::MAX),
            DepthBehavior::Min(min) => (min.0.get(), usize::MAX),
            DepthBehavior::Max(max) => (0, max.0),
            DepthBehavior::MinMax(both) => (both.min.get(), both.max().get()),
        }
    }
}

impl From<DepthMin> for DepthBehavior {
    fn from(min: DepthMin) -> Self {
        DepthBehavior::Min(min)
    }
}

impl From<DepthMax> for DepthBehavior {
    fn from(max: DepthMax) -> Self {
        DepthBehavior::Max(max)
    }
}

impl From<DepthMinMax> for DepthBehavior {
    fn from(both: DepthMinMax) -> Self {
        DepthBehavior::MinMax(both)
    }
}

/// What a walk does at a symbolic link.
#[derive(Clone, Copy, Debug, Default, Eq, PartialEq)]
pub enum LinkBehavior {
    /// The link is an entry, and isn't followed, not even at the root of the walk.
    #[default]
    ReadFile,
    /// The link is followed. A link that leads nowhere, or to a folder that contains it, is an error.
    ReadTarget,
}

impl LinkBehavior {
    /// Returns the metadata of what is at a path. The empty path is the working folder.
    pub(crate) fn metadata(self, path: &Path) -> io::Result<Metadata> {
        let path = openable(path);
        match self {
            LinkBehavior::ReadFile => fs::symlink_metadata(path),
            LinkBehavior::ReadTarget => fs::metadata(path),
        }
    }
}

/// Returns a path that the system takes, also for the working folder.
pub(crate) fn openable(path: &Path) -> &Path {
    if path.as_os_str().is_empty() {
        Path::new(".")
    } else {
        path
    }
}

/// How a walk goes. It can be made of the parts that aren't the default, or of `()`.
///
/// ```
/// use wax::walk::{DepthMax, LinkBehavior, WalkBehavior};
///
/// let shallow = WalkBehavior::from(DepthMax(1));
/// assert_eq!(shallow.link, LinkBehavior::ReadFile);
/// ```
#[derive(Clone, Copy, Debug, Default, Eq, PartialEq)]
pub struct WalkBehavior {
    /// The depths of the entries.
    pub depth: DepthBehavior,
    /// What happens at a link.
    pub link: LinkBehavior,
}

impl From<()> for WalkBehavior {
    fn from((): ()) -> Self {
        WalkBehavior::default()
    }
}

impl From<DepthBehavior> for WalkBehavior {
    fn from(depth: DepthBehavior) -> Self {
        WalkBehavior {
            depth,
            ..WalkBehavior::default()
        }
    }
}

impl From<DepthMin> for WalkBehavior {
    fn from(min: DepthMin) -> Self {
        DepthBehavior::from(min).into()
    }
}

impl From<DepthMax> for WalkBehavior {
    fn from(max: DepthMax) -> Self {
        DepthBehavior::from(max).into()
    }
}

impl From<DepthMinMax> for WalkBehavior {
    fn from(both: DepthMinMax) -> Self {
        DepthBehavior::from(both).into()
    }
}

impl From<LinkBehavior> for WalkBehavior {
    fn from(link: LinkBehavior) -> Self {
        WalkBehavior {
            link,
            ..WalkBehavior::default()
        }
    }
}
