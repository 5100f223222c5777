//! Walks of folders.
//!
//! [`Glob::walk`](crate::Glob::walk) and [`Any::walk`](crate::Any::walk) find what a pattern matches in a folder, and [`PathExt`]
//! everything in it. [`FileIterator`] excludes some of it.
//!
//! ```
//! use wax::walk::{Entry, FileIterator};
//! use wax::Glob;
//!
//! # fn main() -> Result<(), wax::GlobError> {
//! let glob = Glob::new("src/**/*.rs")?;
//! for entry in glob.walk(".").not("**/query.rs")? {
//!     let entry = entry?;
//!     println!("{} {:?}", entry.path().display(), entry.matched().get(2));
//! }
//! # Ok(())
//! # }
//! ```
//!
//! Patterns match the path of an entry from the root of the walk, with `/` between the names. The root itself has the empty
//! path. If the root is the empty path, it is the working folder.
//!
//! # Which folders are opened
//!
//! A folder is opened only if the pattern can match something below it, and if nothing that is excluded covers everything below
//! it. On the way to the names with which all matches begin no folder is opened: `src/net/*` opens only `src/net`.
//!
//! The C library makes each of these decisions about a path. They are proved, but the walk itself is not.
//!
//! # Errors
//!
//! If something can't be read, the walk yields a [`WalkError`] in its place, and goes on with the rest. A name that isn't UTF-8
//! is an error, too, since no pattern matches it. If nothing is where the walk begins, the error is its only item.

mod behavior;
mod entry;
mod iterator;
mod patterns;
mod walker;

pub use crate::ignore::{IgnoreError, IgnoreList};
pub use crate::walk::behavior::{
    DepthBehavior, DepthMax, DepthMin, DepthMinMax, LinkBehavior, WalkBehavior,
};
pub use crate::walk::entry::{Entry, GlobEntry, TreeEntry, WalkError};
pub use crate::walk::iterator::{EntryResidue, FileIterator, FilterEntry, Not};
pub use crate::walk::patterns::{AnyWalker, GlobWalker, PathExt, WalkTree};
pub use crate::walk::walker::Walker;
