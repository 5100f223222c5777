//! Walks as iterators, and what can be excluded from them.

use std::sync::Arc;

use crate::ignore::IgnoreList;
use crate::sys::{self, Handle};
use crate::walk::entry::{Entry, WalkError};
use crate::walk::walker::{Matcher, Visit, Walker};
use crate::{BuildError, Glob, Pattern};

/// A walk with what it excludes.
pub trait Feed {
    type Matcher: Matcher;

    /// Goes to the next entry, be it excluded or not, or returns the next error.
    fn advance(&mut self) -> Option<Result<Visit, WalkError>>;

    fn walker(&self) -> &Walker<Self::Matcher>;

    fn walker_mut(&mut self) -> &mut Walker<Self::Matcher>;
}

type EntryOf<F> = <<F as Feed>::Matcher as Matcher>::Entry;

/// Returns the next entry that isn't excluded, or the next error.
pub(crate) fn next_kept<F: Feed>(walk: &mut F) -> Option<Result<EntryOf<F>, WalkError>> {
    loop {
        let visit = match walk.advance()? {
            Ok(visit) => visit,
            Err(error) => return Some(Err(error)),
        };
        walk.walker_mut().decide(visit);
        if visit.is_kept {
            return Some(Ok(walk.walker().entry(visit)));
        }
    }
}

/// What [`filter_entry`](FileIterator::filter_entry) excludes.
#[derive(Clone, Copy, Debug, Eq, Hash, PartialEq)]
pub enum EntryResidue {
    /// Only the entry.
    File,
    /// The entry and everything below it: if it is a folder, it isn't opened.
    Tree,
}

/// A walk: an iterator over the entries that are found, and errors.
///
/// ```no_run
/// use wax::walk::{Entry, FileIterator};
/// use wax::Glob;
///
/// # fn main() -> Result<(), wax::GlobError> {
/// let glob = Glob::new("**/*.{md,txt}")?;
/// for entry in glob.walk("projects").not("**/target/**")? {
///     println!("{}", entry?.path().display());
/// }
/// # Ok(())
/// # }
/// ```
///
/// Only walks of this crate are such iterators.
pub trait FileIterator:
    Feed + Iterator<Item = Result<<Self as FileIterator>::Entry, WalkError>>
{
    /// What the walk finds.
    type Entry: Entry;

    /// Excludes entries by a function: `None` keeps the entry as it is. The function is called for each entry that the walk
    /// reaches, even if the entry doesn't match or was excluded before, and never for an error.
    ///
    /// ```no_run
    /// use std::path::Path;
    /// use wax::walk::{Entry, EntryResidue, FileIterator, PathExt};
    ///
    /// let walk = Path::new(".").walk().filter_entry(|entry| {
    ///     let is_excluded = entry.depth() > 0 && entry.path().join(".git").exists();
    ///     is_excluded.then_some(EntryResidue::Tree)
    /// });
    /// println!("{} entries that are in no other repository", walk.flatten().count());
    /// ```
    fn filter_entry<F>(self, f: F) -> FilterEntry<Self, F>
    where
        Self: Sized,
        F: FnMut(&dyn Entry) -> Option<EntryResidue>,
    {
        FilterEntry { input: self, f }
    }

    /// Excludes what a pattern matches. A folder isn't opened if the pattern is known to match everything below it, as
    /// `target/**` does below `target`.
    ///
    /// # Errors
    ///
    /// Returns the error of the pattern. The walk is gone then.
    fn not<'t, T>(self, pattern: T) -> Result<Not<Self>, BuildError>
    where
        Self: Sized,
        T: Pattern<'t>,
    {
        let globs = pattern.into_globs().map_err(Into::into)?;
        Ok(Not {
            input: self,
            exclusion: Exclusion::of_globs(&globs)?,
        })
    }

    /// Excludes what an ignore list ignores. A folder isn't opened if the list is known to ignore everything below it.
    ///
    /// ```no_run
    /// use wax::walk::{Entry, FileIterator, IgnoreList, PathExt};
    ///
    /// let list = IgnoreList::parse("**/*.o\n!keep.o\ntarget/**\n").unwrap();
    /// for entry in std::path::Path::new(".").walk().ignore(&list) {
    ///     println!("{}", entry.unwrap().path().display());
    /// }
    /// ```
    fn ignore(self, list: &IgnoreList) -> Not<Self>
    where
        Self: Sized,
    {
        Not {
            input: self,
            exclusion: Exclusion {
                list: Some(list.clone()),
                others: Vec::new(),
            },
        }
    }
}

impl<I, T> FileIterator for I
where
    I: Feed + Iterator<Item = Result<T, WalkError>>,
    T: Entry,
{
    type Entry = T;
}

/// A walk without what a function excludes.
#[derive(Debug)]
#[must_use = "a walk finds nothing until its items are requested"]
pub struct FilterEntry<I, F> {
    input: I,
    f: F,
}

impl<I, F> Feed for FilterEntry<I, F>
where
    I: Feed,
    F: FnMut(&dyn Entry) -> Option<EntryResidue>,
{
    type Matcher = I::Matcher;

    fn advance(&mut self) -> Option<Result<Visit, WalkError>> {
        let mut visit = match self.input.advance()? {
            Ok(visit) => visit,
            error => return Some(error),
        };
        let entry = self.input.walker().tree_entry(visit);
        if let Some(residue) = (self.f)(&entry) {
            visit.is_kept = false;
            visit.is_opened &= residue == EntryResidue::File;
        }
        Some(Ok(visit))
    }

    fn walker(&self) -> &Walker<I::Matcher> {
        self.input.walker()
    }

    fn walker_mut(&mut self) -> &mut Walker<I::Matcher> {
        self.input.walker_mut()
    }
}

impl<I, F> Iterator for FilterEntry<I, F>
where
    I: Feed,
    F: FnMut(&dyn Entry) -> Option<EntryResidue>,
{
    type Item = Result<EntryOf<I>, WalkError>;

    fn next(&mut self) -> Option<Self::Item> {
        next_kept(self)
    }
}

/// A walk without what a pattern matches, or an ignore list ignores.
#[derive(Debug)]
#[must_use = "a walk finds nothing until its items are requested"]
pub struct Not<I> {
    input: I,
    exclusion: Exclusion,
}

impl<I: Feed> Feed for Not<I> {
    type Matcher = I::Matcher;

    fn advance(&mut self) -> Option<Result<Visit, WalkError>> {
        let mut visit = match self.input.advance()? {
            Ok(visit) => visit,
            error => return Some(error),
        };
        let path = self.input.walker().candidate();
        visit.is_kept = visit.is_kept && !self.exclusion.excludes(path);
        visit.is_opened = visit.is_opened && !self.exclusion.excludes_below(path);
        Some(Ok(visit))
    }

    fn walker(&self) -> &Walker<I::Matcher> {
        self.input.walker()
    }

    fn walker_mut(&mut self) -> &mut Walker<I::Matcher> {
        self.input.walker_mut()
    }
}

impl<I: Feed> Iterator for Not<I> {
    type Item = Result<EntryOf<I>, WalkError>;

    fn next(&mut self) -> Option<Self::Item> {
        next_kept(self)
    }
}

/// What a walk excludes. Patterns are lines of an ignore list, which says below which folders they match everything.
#[derive(Debug)]
struct Exclusion {
    list: Option<IgnoreList>,
    /// those that no line can have
    others: Vec<Arc<Handle<sys::Glob>>>,
}

impl Exclusion {
    fn of_globs(globs: &[Glob<'_>]) -> Result<Self, BuildError> {
        let lines: String = globs.iter().filter_map(line_of).collect();
        let list = if lines.is_empty() {
            None
        } else {
            Some(IgnoreList::parse(&lines).map_err(|error| error.error().clone())?)
        };
        let others = globs.iter().filter(|glob| line_of(glob).is_none());
        Ok(Exclusion {
            list,
            others: others.map(|glob| Arc::clone(glob.handle())).collect(),
        })
    }

    fn excludes(&self, path: &str) -> bool {
        self.list.iter().any(|list| list.is_ignored(path))
            || self.others.iter().any(|glob| glob.is_match(path))
    }

    fn excludes_below(&self, folder: &str) -> bool {
        self.list.iter().any(|list| list.excludes_below(folder))
    }
}

/// Returns the line of an ignore list that ignores what a glob matches, if there is one.
fn line_of(glob: &Glob<'_>) -> Option<String> {
    let expression = glob
        .whole_expression()
        .filter(|it| !it.is_empty() && !it.contains('\n'))?;
    // (at the beginning of a line `#` and `!` aren't part of the glob, and at its end one carriage return is dropped)
    let flags = if expression.starts_with(['#', '!']) {
        "(?-i)"
    } else {
        ""
    };
    Some(format!("{flags}{expression}\r\n"))
}
